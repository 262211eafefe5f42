//! Matrices on either side of a decision, one last bit apart.

use super::rng::Rng;
use super::symmetric::Symmetric;
use super::{aimed, plain};
use crate::{answer, GMW81};

/// What is decided: the pivots in GMW81, else the phase-two step.
type Outcome = (Vec<usize>, Option<usize>);

fn outcome(method: u8, matrix: &Symmetric) -> Outcome {
    let answer = answer(method, matrix.rows(), matrix.entries(), None);
    match method {
        GMW81 => (answer.p, None),
        _ => (Vec::new(), answer.phase_two),
    }
}

/// Moves one diagonal entry to where the outcome changes.
pub fn last_bit(method: u8, n: usize, step: usize, rng: &mut Rng) -> Symmetric {
    let start = match method {
        GMW81 => plain::indefinite(n, rng),
        _ => aimed::phase_two_at(method, n, step, rng),
    };
    let first = outcome(method, &start);
    for i in rng.permutation(n) {
        for change in [0.5, -0.5, 4.0, -4.0, 100.0] {
            let end = start.get(i, i) + change;
            let same = |entry: f64| outcome(method, &start.with(i, i, entry)) == first;
            if !same(end) {
                let (last, next) = border(start.get(i, i), end, same);
                return start.with(i, i, rng.pick(&[last, next]));
            }
        }
    }
    start
}

/// Between `start`, for which `same` holds, and `end`, for which it doesn't, halves the doubles until
/// two are left.
pub fn border(start: f64, end: f64, same: impl Fn(f64) -> bool) -> (f64, f64) {
    let (mut last, mut next) = (rank(start), rank(end));
    while (last - next).abs() > 1 {
        let middle = (last + next).div_euclid(2);
        if same(double(middle)) {
            last = middle;
        } else {
            next = middle;
        }
    }
    (double(last), double(next))
}

/// The doubles in order, zero at 0.
fn rank(x: f64) -> i128 {
    let size = i128::from(x.abs().to_bits());
    if x < 0.0 {
        -size
    } else {
        size
    }
}

fn double(rank: i128) -> f64 {
    let size = f64::from_bits(rank.unsigned_abs() as u64);
    if rank < 0 {
        -size
    } else {
        size
    }
}
