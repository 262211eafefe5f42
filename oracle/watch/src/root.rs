//! Whether rounding changes a square root, by whole numbers.

/// For a finite `x` that isn't negative: whether no double has it as its exact, unrounded square. Never of any
/// other operand, which is refused.
///
/// Above zero `x` is an odd whole number times a power of two. It is a square when the number is one and the
/// exponent is even, and its root is then a double: the number's root has at most 27 binary digits.
pub fn is_inexact(x: f64) -> bool {
    if !x.is_finite() || x <= 0.0 {
        return false;
    }
    let (odd, exponent) = odd_part(x);
    exponent % 2 != 0 || odd.isqrt().pow(2) != odd
}

/// The odd whole number, and the exponent of two by which it is `x`, which is finite and above zero.
fn odd_part(x: f64) -> (u64, i32) {
    let bits = x.to_bits();
    let (exponent, fraction) = ((bits >> 52) as i32, bits & ((1 << 52) - 1));
    let (significand, exponent) = match exponent {
        // Subnormal: no leading one.
        0 => (fraction, -1074),
        _ => (fraction | 1 << 52, exponent - 1075),
    };
    let zeros = significand.trailing_zeros();
    (significand >> zeros, exponent + zeros as i32)
}

#[cfg(test)]
mod tests {
    use super::*;

    /// The same by the machine's root: its exact square has as many binary digits as it takes.
    fn differs_from_square(x: f64) -> bool {
        let (root, half) = odd_part(x.sqrt());
        let (odd, exponent) = odd_part(x);
        (u128::from(root).pow(2), 2 * half) != (u128::from(odd), exponent)
    }

    #[test]
    fn zeros_and_refused_operands() {
        let never = [0.0, -0.0, -1.0, -2.0, -f64::MAX, -f64::from_bits(1)];
        let not_finite = [f64::INFINITY, f64::NEG_INFINITY, f64::NAN];
        assert!(!never.into_iter().chain(not_finite).any(is_inexact));
    }

    #[test]
    fn powers_of_two() {
        for exponent in -1074i32..=1023 {
            let (half, rest) = (exponent.div_euclid(2), exponent.rem_euclid(2));
            let x = 2f64.powi(half) * 2f64.powi(half) * 2f64.powi(rest);
            assert_eq!(is_inexact(x), rest == 1, "{exponent}");
        }
    }

    #[test]
    fn ends_of_the_range() {
        let inexact = [f64::MAX, f64::MIN_POSITIVE.next_down(), 2.0, 0.1];
        assert!(inexact.into_iter().all(is_inexact));
        let exact = [f64::from_bits(4), f64::from_bits(9), f64::MIN_POSITIVE, 1.0];
        assert!(!exact.into_iter().any(is_inexact));
        // The square of the largest number of 27 binary digits has 54: it is no double.
        let most = 2f64.powi(27) - 1.0;
        assert!(is_inexact(most * most));
        let less = 2f64.powi(26) - 1.0;
        assert!(!is_inexact(less * less));
    }

    #[test]
    fn squares_and_their_neighbours() {
        let mut exact = 0;
        for k in 1..20_000u64 {
            // From 1 to 53 binary digits, at every scale.
            let m = k.wrapping_mul(0x9e37_79b9_7f4a_7c15) >> (11 + k % 53);
            let r = m.max(1) as f64 * 2f64.powi((k % 1030) as i32 - 550);
            for x in [r * r, (r * r).next_up(), (r * r).next_down()] {
                if x.is_finite() && x > 0.0 {
                    assert_eq!(is_inexact(x), differs_from_square(x), "{x:e}");
                    exact += usize::from(!is_inexact(x));
                }
            }
        }
        assert!(exact > 5_000, "{exact}");
    }
}
