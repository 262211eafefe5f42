//! Kinds that aim at no step.

use super::rng::Rng;
use super::symmetric::Symmetric;

/// The product of an n by `rank` matrix with its transpose.
fn gram(n: usize, rank: usize, rng: &mut Rng) -> Symmetric {
    let b: Vec<f64> = (0..n * rank).map(|_| rng.signed(1.0)).collect();
    let dot = |i: usize, j: usize| (0..rank).map(|k| b[i * rank + k] * b[j * rank + k]).sum();
    Symmetric::new(n, dot)
}

pub fn positive_definite(n: usize, rng: &mut Rng) -> Symmetric {
    let scale = 2f64.powi(rng.whole(-20, 20));
    let shift = rng.within(0.01, 1.0);
    let product = gram(n, n, rng);
    Symmetric::new(n, |i, j| {
        (product.get(i, j) + if i == j { shift } else { 0.0 }) * scale
    })
}

pub fn indefinite(n: usize, rng: &mut Rng) -> Symmetric {
    let diagonal = rng.pick(&[0.1, 1.0, 3.0]);
    let scale = 2f64.powi(rng.whole(-20, 20));
    Symmetric::new(n, |i, j| {
        rng.signed(if i == j { diagonal } else { 1.0 }) * scale
    })
}

/// Of lower rank but for rounding, or for a few last bits of the diagonal.
pub fn near_singular(n: usize, rng: &mut Rng) -> Symmetric {
    let rank = n.saturating_sub(1 + rng.below(2)).max(1);
    let product = gram(n, rank, rng);
    let bits = rng.pick(&[0.0, 1e-16, 1e-12, 1e-6]);
    let shift: Vec<f64> = (0..n).map(|_| rng.signed(bits)).collect();
    Symmetric::new(n, |i, j| {
        product.get(i, j) + if i == j { shift[i] } else { 0.0 }
    })
}

/// All equal, or a few values shared by many; in magnitude only now and then.
pub fn equal_diagonals(n: usize, rng: &mut Rng) -> Symmetric {
    let values = [rng.within(0.5, 2.0), rng.within(0.5, 2.0)];
    let shared = 1 + rng.below(2);
    let signs: &[f64] = rng.pick(&[&[1.0], &[1.0], &[1.0, -1.0]]);
    let size = rng.pick(&[0.0, 0.1, 1.0, 3.0]) / n as f64;
    Symmetric::new(n, |i, j| match i == j {
        true => rng.pick(&values[..shared]) * rng.pick(signs),
        false => rng.signed(size),
    })
}

pub fn zero_diagonals(n: usize, rng: &mut Rng) -> Symmetric {
    let size = rng.pick(&[0.0, 1.0, 1e-200]);
    let ones = rng.coin();
    Symmetric::new(n, |i, j| match i == j {
        true if ones && rng.below(3) == 0 => 1.0,
        true => rng.zero(),
        false if rng.coin() => rng.zero(),
        false => rng.signed(size),
    })
}

pub fn small_integers(n: usize, rng: &mut Rng) -> Symmetric {
    let lift = rng.pick(&[0, 0, 3, 3 * n as i32]);
    Symmetric::new(n, |i, j| {
        f64::from(rng.whole(-4, 4) + if i == j { lift } else { 0 })
    })
}

pub fn wide_magnitudes(n: usize, rng: &mut Rng) -> Symmetric {
    let width = rng.pick(&[40, 300, 1000]);
    let positive = rng.coin();
    Symmetric::new(n, |i, j| {
        let x = rng.either(1.0, 2.0) * 2f64.powi(rng.whole(-width, width));
        if positive && i == j {
            x.abs()
        } else {
            x
        }
    })
}

pub fn signed_zeros(n: usize, rng: &mut Rng) -> Symmetric {
    let diagonal = rng.pick(&[-0.0, 1.0, 2.0]);
    Symmetric::new(n, |i, j| match i == j {
        true => diagonal + rng.pick(&[0.0, -0.0, 1.0, 1.0, -1.0]),
        false => rng.pick(&[0.0, -0.0, 0.0, -0.0, 1.0, -1.0, 0.5]),
    })
}

/// Whole numbers of 2^-1074, from a few up to the normal range.
pub fn subnormal(n: usize, rng: &mut Rng) -> Symmetric {
    let wide = 1u64 << rng.pick(&[2, 4, 20, 51]);
    let positive = rng.coin();
    Symmetric::new(n, |i, j| {
        let size = f64::from_bits(rng.bits() % wide + if i == j { wide } else { 0 });
        if (positive && i == j) || rng.coin() {
            size
        } else {
            -size
        }
    })
}

/// Magnitudes whose squares, or whose sums, overflow.
pub fn huge(n: usize, rng: &mut Rng) -> Symmetric {
    let power = rng.pick(&[505, 512, 600, 1022]);
    let lift = rng.pick(&[0.0, 0.0, 1.0]);
    Symmetric::new(n, |i, j| match i == j {
        true => (rng.signed(1.0) + lift) * 2f64.powi(power),
        false => rng.signed(1.0) * 2f64.powi(power),
    })
}

/// Diagonal, with entries at the ends of the double range.
pub fn range_ends(n: usize, rng: &mut Rng) -> Symmetric {
    let least = f64::from_bits(1);
    let ends = [
        least,
        3.0 * least,
        f64::MIN_POSITIVE - least,
        f64::MIN_POSITIVE,
        f64::MIN_POSITIVE + least,
        1.0 - f64::EPSILON / 2.0,
        1.0 + f64::EPSILON,
        f64::MAX / 2.0,
        f64::MAX,
    ];
    let sign = rng.pick(&[1.0, 1.0, -1.0]);
    let part = rng.pick(&[&ends[..5], &ends[..7], &ends[5..], &ends[..]]);
    Symmetric::new(n, |i, j| {
        if i == j {
            rng.pick(part) * sign
        } else {
            rng.zero()
        }
    })
}
