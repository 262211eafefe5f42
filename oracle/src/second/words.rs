//! Constants and the calls whose meaning document 01 fixes.

use modcholesky::standins::CBRT_OF_EPSILON;

/// The double nearest the cube root of 2^-52.
pub const TAU: f64 = f64::from_bits(CBRT_OF_EPSILON);
pub const TAU_BAR: f64 = TAU;
pub const MU: f64 = 0.1;
pub const EPSILON: f64 = f64::EPSILON;

pub fn max(u: f64, v: f64) -> f64 {
    if v > u || u.is_nan() {
        v
    } else {
        u
    }
}

pub fn square(v: f64) -> f64 {
    v * v
}

/// Left to right from +0.0.
pub fn sum(values: impl Iterator<Item = f64>) -> f64 {
    values.fold(0.0, |acc, x| acc + x)
}

pub fn sum_of_magnitudes(values: impl Iterator<Item = f64>) -> f64 {
    sum(values.map(f64::abs))
}

/// 0 of nothing.
pub fn largest_magnitude(values: impl Iterator<Item = f64>) -> f64 {
    values.fold(0.0, |acc, x| if x.abs() > acc { x.abs() } else { acc })
}

/// Infinite of nothing; skips NaN.
pub fn least(values: impl Iterator<Item = f64>) -> f64 {
    values.fold(f64::INFINITY, |acc, x| if x < acc { x } else { acc })
}

pub fn largest(values: impl Iterator<Item = f64>) -> f64 {
    values.fold(f64::NEG_INFINITY, |acc, x| if x > acc { x } else { acc })
}
