//! Matrices for the count of inexact roots. Which roots rounding changes is known by hand.

use crate::second::TAU;

/// Three rows that begin phase two at step 0, in SE90 and in SE99. L's diagonal is the root of 8, 1, 1.
pub const STEP: [f64; 9] = [-9.0, 2.0, 4.0, 2.0, -9.0, 4.0, 4.0, 4.0, -4.0];

/// The same with 2, the root of 2, 1: in the last block the first root alone is inexact.
pub const BLOCK_FIRST: [f64; 9] = [-2.0, 2.0, 2.0, 2.0, -3.0, 1.0, 2.0, 1.0, -4.0];

/// The same with 2, 2, the root of 0.75: the block's second root alone is.
pub const BLOCK_SECOND: [f64; 9] = [-9.0, 2.0, 2.0, 2.0, -8.0, 4.0, 2.0, 4.0, -9.0];

/// The same with 2, 1, 1: all are exact. The eigenvalues' root is of 1.25: the block is (-9 1; 1 -10).
pub const EIGENVALUES: [f64; 9] = [-9.0, 2.0, 2.0, 2.0, -7.0, 2.0, 2.0, 2.0, -8.0];

pub fn diagonal(values: &[f64]) -> Vec<f64> {
    let n = values.len();
    let entry = |k: usize| if k % (n + 1) == 0 { values[k / n] } else { 0.0 };
    (0..n * n).map(entry).collect()
}

/// GMW81's d is 16, 1, 1, 1. The roots in beta are of 15 and of 2.
pub fn beta() -> Vec<f64> {
    let mut a = diagonal(&[2.0, 1.0 + 2.0 * f64::EPSILON, 1.0, 1.0]);
    let far = 4.0 * 2f64.sqrt();
    (a[1], a[4]) = (far, far);
    a
}

/// In SE99 the root of the single last row.
pub const LAST_ROOT: f64 = 3.0 / 512.0;

/// Two rows of which SE99 enters phase two at the last one, as tau times the first entry. That product is the
/// square of `LAST_ROOT`; the first entry's own root is inexact.
pub fn last_row() -> Vec<f64> {
    diagonal(&[LAST_ROOT * LAST_ROOT / TAU, 0.0])
}

/// The root of the single last row below.
pub const SMALL_LAST_ROOT: f64 = LAST_ROOT * SMALL;

/// 2^-325.
const SMALL: f64 = f64::from_bits((1023 - 325) << 52);

/// Two rows of which SE90 enters phase two at the last one, left as zero, as a product underflows in its test of tmp.
/// tau times the first entry is the square of `SMALL_LAST_ROOT`; the first entry's own root is inexact.
pub fn zero_last_row() -> Vec<f64> {
    let first = last_row()[0] * SMALL * SMALL;
    let below = first / 2.0;
    let taken = below / first.sqrt();
    vec![first, below, below, taken * taken]
}

/// Also diagonals, of zeros and of subnormal numbers too.
pub fn all() -> Vec<Vec<f64>> {
    let unit = f64::from_bits(1);
    let diagonals: [&[f64]; 7] = [
        &[2.0],
        &[4.0, 3.0, 2.0, 1.0],
        &[1.0, 0.0],
        &[2.0, -0.0],
        &[9.0 * unit],
        &[15.0 * unit, unit, 2.0 * unit],
        &[4.0, 3.0],
    ];
    let rows = [STEP, BLOCK_FIRST, BLOCK_SECOND, EIGENVALUES].map(Vec::from);
    let mut all: Vec<Vec<f64>> = diagonals.map(diagonal).into();
    all.extend(rows);
    all.extend([beta(), last_row(), zero_last_row()]);
    all.push(vec![1.0, 2.0, 2.0, -1.0]);
    all
}
