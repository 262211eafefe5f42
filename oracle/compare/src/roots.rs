//! How many roots on the diagonals of complete runs were exact and how many inexact.

use oracle::Answer;
use std::fmt;
use std::ops::Add;

#[derive(Clone, Copy, Debug, Default, PartialEq)]
pub struct Roots {
    exact: u64,
    inexact: u64,
    /// Runs that had both.
    mixed: u64,
}

impl Roots {
    pub const HEAD: &'static str = "exact roots  inexact  runs with both";

    /// Those of a complete run.
    pub fn of(answer: &Answer) -> Self {
        let (n, inexact) = (answer.p.len() as u64, answer.inexact as u64);
        Roots {
            exact: n.saturating_sub(inexact),
            inexact,
            mixed: u64::from(0 < inexact && inexact < n),
        }
    }

    /// Whether exact ones, inexact ones and runs with both occurred.
    pub fn all_occurred(&self) -> bool {
        self.exact > 0 && self.inexact > 0 && self.mixed > 0
    }
}

impl Add for Roots {
    type Output = Roots;

    fn add(self, other: Roots) -> Roots {
        Roots {
            exact: self.exact + other.exact,
            inexact: self.inexact + other.inexact,
            mixed: self.mixed + other.mixed,
        }
    }
}

impl fmt::Display for Roots {
    fn fmt(&self, f: &mut fmt::Formatter) -> fmt::Result {
        let Roots {
            exact,
            inexact,
            mixed,
        } = self;
        write!(f, "{exact:11} {inexact:8} {mixed:15}")
    }
}

#[cfg(test)]
mod tests {
    use super::*;
    use oracle::{factor, GMW81};

    #[test]
    fn both_occur_in_a_run_with_one_inexact_root() {
        let one = Roots::of(&factor(GMW81, 2, &[4.0, 0.0, 0.0, 3.0]));
        assert_eq!((one.exact, one.inexact, one.mixed), (1, 1, 1));
        assert!(one.all_occurred());
        let [none, all] = [4.0, 3.0].map(|x| Roots::of(&factor(GMW81, 1, &[x])));
        assert!(!none.all_occurred() && !(none + all).all_occurred());
        assert!((none + all + one).all_occurred());
    }
}
