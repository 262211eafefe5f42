//! Kinds that aim at a step. Candidates are built in pivot order and run until one gets there.

use super::rng::Rng;
use super::symmetric::Symmetric;
use super::{pivots, plain};
use crate::{answer, Answer, GMW81, NOT_FINITE, SE90};

const TRIES: usize = 16;

/// The first candidate that is as wanted, else the last one tried.
pub fn aim(
    rng: &mut Rng,
    candidate: impl Fn(&mut Rng) -> Symmetric,
    wanted: impl Fn(&Symmetric) -> bool,
) -> Symmetric {
    let mut made = candidate(rng);
    for _ in 1..TRIES {
        if wanted(&made) {
            break;
        }
        made = candidate(rng);
    }
    made
}

fn answered(method: u8, made: &Symmetric) -> Answer {
    answer(method, made.rows(), made.entries(), None)
}

/// Two rows whose diagonals would differ at `step` without rounding. That takes a step before it and
/// a row after it.
pub fn tied_by_rounding(method: u8, n: usize, step: usize, rng: &mut Rng) -> Symmetric {
    if n < 3 {
        return plain::equal_diagonals(n, rng);
    }
    let step = step.clamp(1, n - 2);
    let candidate = |rng: &mut Rng| rounded_tie(n, step, rng);
    aim(rng, candidate, |made| {
        answered(method, made).tied == Some(step)
    })
}

/// Rows `step` and `step + 1` meet the pivots before only through one entry: either one too small
/// to be felt, or one that takes off three quarters of the last bit by which the second is larger.
fn rounded_tie(n: usize, step: usize, rng: &mut Rng) -> Symmetric {
    let pivot = |i: usize| 4.0 + (step - i) as f64;
    let tied = rng.within(1.0, 2.0);
    let larger = rng.coin();
    let mut out = Symmetric::new(n, |i, j| match (i == j, i < step, i < step + 2) {
        (true, true, _) => pivot(i),
        (true, _, true) => tied,
        (true, _, _) => rng.within(0.3, 0.6),
        (_, false, true) if j < step => 0.0,
        _ => rng.signed(0.2 / n as f64),
    });
    if larger {
        out.set(step + 1, step + 1, tied + f64::EPSILON);
        out.set(
            step + 1,
            step - 1,
            (0.75 * f64::EPSILON * pivot(step - 1)).sqrt(),
        );
    } else {
        out.set(step, step - 1, rng.either(1e-10, 1e-9));
    }
    out
}

pub fn phase_two_at(method: u8, n: usize, step: usize, rng: &mut Rng) -> Symmetric {
    if method == SE90 && step + 1 == n {
        return pivots::not_positive(n, step, rng);
    }
    let candidate = |rng: &mut Rng| leaving(method, n, step, rng);
    aim(rng, candidate, |made| {
        answered(method, made).phase_two == Some(step)
    })
}

/// SE90's test of tmp sees the diagonal one step ahead. SE99's first test sees the present one, its second
/// one step ahead.
fn leaving(method: u8, n: usize, step: usize, rng: &mut Rng) -> Symmetric {
    let ahead = step + 1 < n && (method == SE90 || rng.coin());
    let negative = match (method, ahead) {
        (SE90, _) => rng.within(-0.5, -0.1),
        (_, true) => rng.within(-1.6, -1.0),
        (_, false) => rng.within(-0.6, -0.2),
    };
    with_remainder(n, if ahead { step + 1 } else { step }, negative, rng)
}

/// What is left of the matrix after `steps` steps has the diagonal entry `negative`. Before the
/// last of them it hadn't, since that pivot's column is large.
fn with_remainder(n: usize, steps: usize, negative: f64, rng: &mut Rng) -> Symmetric {
    let pivot = |s: usize| 8.0 - 4.0 * s as f64 / steps as f64;
    let columns: Vec<Vec<f64>> = (0..steps).map(|s| column(n, s, steps, rng)).collect();
    let at = steps + rng.below(n - steps);
    Symmetric::new(n, |i, j| {
        let product: f64 = (0..steps)
            .map(|s| pivot(s) * columns[s][i] * columns[s][j])
            .sum();
        let rest = match (j < steps, i == j) {
            (true, _) => 0.0,
            (_, true) if i == at => negative,
            (_, true) => rng.within(0.1, 0.5),
            (_, false) => rng.signed(0.3),
        };
        product + rest
    })
}

/// Column `s` of a unit lower triangle.
fn column(n: usize, s: usize, steps: usize, rng: &mut Rng) -> Vec<f64> {
    let entry = |i: usize| match i {
        _ if i < s => 0.0,
        _ if i == s => 1.0,
        _ if s + 1 == steps => rng.either(0.6, 0.9),
        _ => rng.signed(0.3 / (steps as f64).sqrt()),
    };
    (0..n).map(entry).collect()
}

/// Of n and a step.
pub type Candidate = fn(usize, usize, &mut Rng) -> Symmetric;

fn refused_by(ways: &[Candidate], method: u8, n: usize, step: usize, rng: &mut Rng) -> Symmetric {
    let way = rng.pick(ways);
    let candidate = |rng: &mut Rng| way(n, step, rng);
    aim(rng, candidate, |made| {
        let answer = answered(method, made);
        (answer.refusal, answer.step) == (NOT_FINITE, step)
    })
}

pub fn refused_at(method: u8, n: usize, step: usize, rng: &mut Rng) -> Symmetric {
    let ways = ways_to_refuse(method, n, step);
    if ways.is_empty() {
        // SE90 and SE99 have none at a last step but the first.
        return refused_at(method, n, step - 1, rng);
    }
    refused_by(&ways, method, n, step, rng)
}

fn ways_to_refuse(method: u8, n: usize, step: usize) -> Vec<Candidate> {
    let left = n - step;
    let ways: [(bool, Candidate); 8] = [
        (method == GMW81, amount_overflows),
        (method == GMW81 && left > 1, square_overflows),
        (method != GMW81 && left > 1, pivots::zeros_left),
        (
            method != GMW81 && left > 2 && step > 0,
            zero_row_in_phase_two,
        ),
        (method != GMW81 && left > 2, circles_overflow),
        (method != GMW81 && left == 2, eigenvalues_overflow),
        (method != GMW81 && left == 2, eigenvalue_root_below_zero),
        (method != GMW81 && n == 1, last_amount_overflows),
    ];
    ways.iter()
        .filter(|(can, _)| *can)
        .map(|(_, way)| *way)
        .collect()
}

/// The first steps are finite, where n leaves room for that.
pub fn overflow_half_way(method: u8, n: usize, step: usize, rng: &mut Rng) -> Symmetric {
    let last = n - if method == GMW81 { 1 } else { n.min(2) };
    let step = step.max(1).min(last);
    let ways: &[Candidate] = match (method, n - step) {
        (GMW81, 1) => &[amount_overflows],
        (GMW81, _) => &[amount_overflows, square_overflows],
        (_, 1) => &[last_amount_overflows],
        (_, 2) => &[eigenvalues_overflow],
        (_, _) => &[circles_overflow],
    };
    refused_by(ways, method, n, step, rng)
}

/// Large diagonals in falling order.
fn falling(i: usize) -> f64 {
    f64::MAX * (0.99 - 0.001 * i as f64)
}

/// GMW81: twice the magnitude of a large negative diagonal is added.
fn amount_overflows(n: usize, step: usize, rng: &mut Rng) -> Symmetric {
    let size = rng.pick(&[0.0, 1.0, 1e100]);
    Symmetric::new(n, |i, j| match i == j {
        true if i < step => falling(i),
        true if i == step => -falling(i),
        true => f64::MAX * rng.signed(0.4),
        false => rng.signed(size),
    })
}

/// GMW81: an entry of the pivot's column has an infinite square.
fn square_overflows(n: usize, step: usize, rng: &mut Rng) -> Symmetric {
    let diagonal = |i: usize| (2.0 - i as f64 / n as f64) * 2f64.powi(560);
    Symmetric::new(n, |i, j| match i == j {
        true => diagonal(i),
        false if j < step => rng.signed(2f64.powi(400)),
        false => rng.either(1.0, 2.0) * 2f64.powi(rng.whole(512, 530)),
    })
}

/// Phase two begins at once. A row of zeros comes after the positive ones, before the negative ones.
fn zero_row_in_phase_two(n: usize, step: usize, rng: &mut Rng) -> Symmetric {
    let unit = f64::from_bits(1);
    Symmetric::new(n, |i, j| match i == j {
        true if i < step => (step + 1 - i) as f64 * unit,
        true if i == step => rng.zero(),
        true if i < n - 1 => -f64::from(rng.whole(0, 3)) * unit,
        true => -(n as f64) * unit,
        false => rng.zero(),
    })
}

/// Phase two begins at `step`, with rows whose sums of magnitudes are infinite.
fn circles_overflow(n: usize, step: usize, rng: &mut Rng) -> Symmetric {
    Symmetric::new(n, |i, j| match i == j {
        true if i < step => falling(i),
        true => f64::MAX * rng.within(0.1, 0.5),
        false if j < step => rng.zero(),
        false => f64::MAX * rng.either(0.6, 0.9),
    })
}

/// The last block's square is infinite.
fn eigenvalues_overflow(n: usize, _: usize, rng: &mut Rng) -> Symmetric {
    let scale = 2f64.powi(rng.whole(514, 900));
    Symmetric::new(n, |_, _| rng.signed(scale))
}

/// The last block's eigenvalues are so close that the operand of their root is rounded below zero.
fn eigenvalue_root_below_zero(n: usize, step: usize, rng: &mut Rng) -> Symmetric {
    let size = if rng.coin() {
        1.0
    } else {
        rng.within(1.0, 2.0)
    };
    let small = rng.either(0.0, 1e-10);
    let bits = f64::from(rng.whole(0, 3)) * f64::EPSILON;
    Symmetric::new(n, |i, j| match (i == j, j < step) {
        (true, _) if i == n - 1 => -size * (1.0 + bits),
        (true, _) => -size,
        (_, true) => 0.0,
        (_, false) => small * size,
    })
}

fn last_amount_overflows(n: usize, _: usize, rng: &mut Rng) -> Symmetric {
    let near = rng.whole(0, 50) as f64 * 1e-7;
    Symmetric::new(n, |_, _| -f64::MAX * (1.0 - near))
}
