//! Runs of SE90 that met a pivot at or below zero: the Rust isn't asked, the second implementation judges.

use oracle::second::Judged;
use oracle::COMPLETE;
use std::fmt;

#[derive(Clone, Copy, Debug, Default, PartialEq)]
pub struct LeftOut {
    runs: u64,
    after_first: u64,
    /// At the last of several steps.
    at_last: u64,
    complete: u64,
}

impl LeftOut {
    /// A run on n rows, which may have met none.
    pub fn add(&mut self, n: usize, judged: &Judged) {
        if let Some(step) = judged.not_positive {
            self.runs += 1;
            self.after_first += u64::from(step > 0);
            self.at_last += u64::from(step > 0 && step + 1 == n);
            self.complete += u64::from(judged.answer.refusal == COMPLETE);
        }
    }

    /// Where no run met such a pivot.
    pub fn missing(&self) -> Option<String> {
        let place = match (self.after_first, self.at_last) {
            (0, _) => "after step 0",
            (_, 0) => "at the last of several steps",
            _ => return None,
        };
        Some(format!("a pivot of SE90 at or below zero {place}"))
    }
}

impl fmt::Display for LeftOut {
    fn fmt(&self, f: &mut fmt::Formatter) -> fmt::Result {
        write!(
            f,
            "SE90's pivot at or below zero: {} runs, {} of these after step 0, {} at the last of several steps, {} complete",
            self.runs, self.after_first, self.at_last, self.complete
        )
    }
}

#[cfg(test)]
mod tests {
    use super::*;
    use oracle::second::judged;
    use oracle::{SE90, SE99};

    fn of(diagonal: &[u64]) -> LeftOut {
        let n = diagonal.len();
        let entry = |k: usize| match k % (n + 1) {
            0 => f64::from_bits(diagonal[k / n]),
            _ => 0.0,
        };
        let a: Vec<f64> = (0..n * n).map(entry).collect();
        let mut out = LeftOut::default();
        out.add(n, &judged(SE90, n, &a, None));
        out
    }

    /// Multiples of the least number.
    #[test]
    fn a_pivot_counts_by_its_step() {
        let counts = |x: LeftOut| [x.runs, x.after_first, x.at_last, x.complete];
        assert_eq!(counts(of(&[1, 1])), [0, 0, 0, 0]);
        assert_eq!(counts(of(&[0])), [1, 0, 0, 1]);
        assert_eq!(counts(of(&[1, 0, 0])), [1, 1, 0, 0]);
        assert_eq!(counts(of(&[1, 0])), [1, 1, 1, 1]);
    }

    #[test]
    fn both_places_are_wanted() {
        let missing = |diagonal: &[u64]| of(diagonal).missing();
        let words = |place: &str| Some(format!("a pivot of SE90 at or below zero {place}"));
        assert_eq!(missing(&[0]), words("after step 0"));
        assert_eq!(missing(&[1, 0, 0]), words("at the last of several steps"));
        assert_eq!(missing(&[1, 0]), None);
    }

    #[test]
    fn other_methods_meet_none() {
        let mut out = LeftOut::default();
        out.add(1, &judged(SE99, 1, &[-4.0], None));
        assert_eq!(out, LeftOut::default());
    }
}
