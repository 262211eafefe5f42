//! The calls whose meaning document 01 fixes.

/// The double nearest the cube root of 2^-52.
pub const CBRT_OF_EPSILON: u64 = 0x3ed9_65fe_a53d_6e3d;

pub trait StandIns {
    fn standin_max(self, other: f64) -> f64;
    fn standin_min(self, other: f64) -> f64;
    fn standin_square(self) -> f64;
    fn standin_cbrt(self) -> f64;
}

impl StandIns for f64 {
    fn standin_max(self, other: f64) -> f64 {
        if other > self || self.is_nan() {
            other
        } else {
            self
        }
    }

    fn standin_min(self, other: f64) -> f64 {
        if other < self || self.is_nan() {
            other
        } else {
            self
        }
    }

    fn standin_square(self) -> f64 {
        self * self
    }

    /// Of EPSILON only: no other cube root is taken.
    fn standin_cbrt(self) -> f64 {
        assert_eq!(self, f64::EPSILON);
        f64::from_bits(CBRT_OF_EPSILON)
    }
}

#[cfg(test)]
mod tests {
    use super::*;

    /// The cube of a number below 2^64, without its lowest 64 bits.
    fn cube_shifted(x: u128) -> u128 {
        let square = x * x;
        let low = x * (square & u128::from(u64::MAX));
        x * (square >> 64) + (low >> 64)
    }

    /// With the double m * 2^-70, halfway to its neighbours lie (2m - 1) * 2^-71 and
    /// (2m + 1) * 2^-71. Their cubes must enclose 2^-52, so those of 2m - 1 and 2m + 1 must enclose
    /// 2^161. Both are odd, so neither equals it.
    #[test]
    fn tau_is_the_nearest_double() {
        let exponent = (CBRT_OF_EPSILON >> 52) as i64 - 1023 - 52;
        let m = u128::from(CBRT_OF_EPSILON & ((1 << 52) - 1) | 1 << 52);
        assert_eq!(exponent, -70);
        assert!(cube_shifted(2 * m - 1) < 1 << 97);
        assert!(cube_shifted(2 * m + 1) >= 1 << 97);
    }

    #[test]
    fn max_and_min_keep_the_first_of_equals_and_skip_nan() {
        assert_eq!(0.0f64.standin_max(-0.0).to_bits(), 0.0f64.to_bits());
        assert_eq!((-0.0f64).standin_max(0.0).to_bits(), (-0.0f64).to_bits());
        assert_eq!((-0.0f64).standin_min(0.0).to_bits(), (-0.0f64).to_bits());
        assert_eq!(f64::NAN.standin_max(1.0), 1.0);
        assert_eq!(1.0f64.standin_max(f64::NAN), 1.0);
        assert_eq!(f64::NAN.standin_min(1.0), 1.0);
        assert_eq!(1.0f64.standin_min(f64::NAN), 1.0);
    }
}
