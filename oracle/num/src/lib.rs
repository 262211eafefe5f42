//! Stand-in for the few names of `num` that the listed Rust files use.

pub mod traits {
    pub trait Signed {
        fn abs(&self) -> Self;
    }

    impl Signed for f64 {
        fn abs(&self) -> f64 {
            f64::abs(*self)
        }
    }

    pub mod identities {
        pub trait Zero {
            fn zero() -> Self;
        }

        pub trait One {
            fn one() -> Self;
        }

        impl Zero for f64 {
            fn zero() -> f64 {
                0.0
            }
        }

        impl One for f64 {
            fn one() -> f64 {
                1.0
            }
        }
    }
}

pub fn abs<T: traits::Signed>(value: T) -> T {
    value.abs()
}
