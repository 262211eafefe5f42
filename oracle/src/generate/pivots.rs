//! Matrices whose SE90 meets a pivot at or below zero: at step 0 by the diagonal loaded, later where a product
//! underflows in the test of tmp.

use super::aimed::{aim, Candidate};
use super::rng::Rng;
use super::symmetric::Symmetric;
use crate::second::judged;
use crate::SE90;

/// At `step`.
pub fn not_positive(n: usize, step: usize, rng: &mut Rng) -> Symmetric {
    let ways: &[Candidate] = match step {
        0 => &[none_positive],
        _ => &[zeros_left, negative_left, exactly_left],
    };
    let way = rng.pick(ways);
    let candidate = |rng: &mut Rng| way(n, step, rng);
    aim(rng, candidate, |made| {
        judged(SE90, n, made.entries(), None).not_positive == Some(step)
    })
}

/// Zeros and negative numbers, a few of them, which tie, or any. With large columns the test of tmp alone would go on.
fn none_positive(n: usize, _: usize, rng: &mut Rng) -> Symmetric {
    let any = rng.below(4) == 0;
    let few = rng.pick(&[&[0.0, -0.0][..], &[-1.0], &[-0.0, -1.0], &[-0.5, -1.0]]);
    let size = rng.pick(&[0.0, 0.1, 3.0]);
    Symmetric::new(n, |i, j| match i == j {
        true if any => -rng.within(0.5, 1.0),
        true => rng.pick(few),
        false => rng.either(0.7, 1.0) * size,
    })
}

/// Positive pivots so small that tau times the largest is zero, then zeros.
pub fn zeros_left(n: usize, step: usize, rng: &mut Rng) -> Symmetric {
    let unit = f64::from_bits(1);
    Symmetric::new(n, |i, j| match i == j {
        true if i < step => (2 * n - i) as f64 * unit,
        false if i < step && rng.below(n) == 0 => unit,
        _ => rng.zero(),
    })
}

/// So small that the test of tmp takes its squares for zero; the elimination doesn't.
fn scale(rng: &mut Rng) -> f64 {
    2f64.powi(2 * rng.whole(-350, -300))
}

/// The column of the pivot before `step` is so large that every diagonal entry after it becomes negative.
fn negative_left(n: usize, step: usize, rng: &mut Rng) -> Symmetric {
    let scale = scale(rng);
    let pivot = |i: usize| 3.0 - i as f64 / step as f64;
    Symmetric::new(n, |i, j| {
        let entry = match i == j {
            true if i < step => pivot(i),
            true => rng.within(0.5, 1.5),
            false if j + 1 == step => rng.either(2.5, 4.0),
            false => rng.signed(0.01),
        };
        entry * scale
    })
}

/// Powers of two. The pivot before `step` is 4 and takes from each later diagonal entry as much as that is, or more:
/// zeros and equal negative numbers are left, though tau times gamma isn't zero.
fn exactly_left(n: usize, step: usize, rng: &mut Rng) -> Symmetric {
    let scale = scale(rng);
    let column: Vec<f64> = (0..n).map(|_| rng.pick(&[1.0, -1.0, 2.0])).collect();
    let parts = rng.pick(&[&[1.0][..], &[0.5], &[1.0, 0.5], &[0.5, 0.25]]);
    Symmetric::new(n, |i, j| {
        let entry = match i == j {
            true if i < step => (3 + step - i) as f64,
            true => column[i] * column[i] / 4.0 * rng.pick(parts),
            false if j + 1 == step => column[i],
            false if j < step => rng.zero(),
            false => rng.signed(1.0),
        };
        entry * scale
    })
}
