//! Elimination without rounding, modulo a prime: rational numbers with different residues differ.

const PRIME: u64 = (1 << 61) - 1;

/// A finite double, as a rational number. 2^61 has the residue 1.
fn residue(x: f64) -> u64 {
    let exponent = (x.to_bits() >> 52 & 0x7ff) as i64;
    assert!(
        (1..0x7ff).contains(&exponent),
        "zero, subnormal or not finite"
    );
    let significand = x.to_bits() & ((1 << 52) - 1) | 1 << 52;
    let power = 1 << (exponent - 1075).rem_euclid(61);
    let size = times(significand, power);
    if x < 0.0 {
        negative(size)
    } else {
        size
    }
}

pub fn negative(x: u64) -> u64 {
    (PRIME - x) % PRIME
}

fn times(x: u64, y: u64) -> u64 {
    (u128::from(x) * u128::from(y) % u128::from(PRIME)) as u64
}

/// By Fermat's little theorem.
fn inverse(x: u64) -> u64 {
    assert_ne!(x, 0);
    let (mut out, mut square, mut exponent) = (1, x, PRIME - 2);
    while exponent > 0 {
        if exponent & 1 == 1 {
            out = times(out, square);
        }
        square = times(square, square);
        exponent >>= 1;
    }
    out
}

/// The diagonal that is left after the pivots, by residues.
pub fn diagonal_after(n: usize, entries: &[f64], pivots: &[usize]) -> Vec<u64> {
    let mut a: Vec<u64> = entries.iter().map(|&x| residue(x)).collect();
    for &p in pivots {
        let column: Vec<u64> = (0..n).map(|i| a[i * n + p]).collect();
        let scale = inverse(column[p]);
        for (place, entry) in a.iter_mut().enumerate() {
            let product = times(times(column[place / n], column[place % n]), scale);
            *entry = (*entry + negative(product)) % PRIME;
        }
    }
    (0..n)
        .filter(|i| !pivots.contains(i))
        .map(|i| a[i * n + i])
        .collect()
}

#[test]
fn residues_are_those_of_rational_numbers() {
    assert_eq!(residue(-3.0), PRIME - 3);
    assert_eq!(times(residue(0.375), 8), 3);
    assert_eq!(times(inverse(7), 7), 1);
    // 1 - 3 * 3 / 4
    let left = diagonal_after(2, &[4.0, 3.0, 3.0, 1.0], &[0]);
    assert_eq!(left, [residue(-1.25)]);
}
