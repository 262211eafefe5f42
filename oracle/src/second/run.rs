//! What a run has in hand, its pivot search, and what counts for refusal 9.

use super::square::Square;
use super::words::largest;
use crate::{is_inexact, Answer};

/// The current step stored a value that isn't finite.
pub struct NotFinite;

/// A value that is about to be stored.
pub fn stored(value: f64) -> Result<f64, NotFinite> {
    if value.is_finite() {
        Ok(value)
    } else {
        Err(NotFinite)
    }
}

/// Searches that found their largest value at two or more candidates.
#[derive(Clone, Copy, Debug, Default, PartialEq)]
pub struct Ties {
    /// In GMW81 or in phase one, which are reported, and of these the ones that took another candidate
    /// than the first in position.
    pub reported: usize,
    pub moved: usize,
    /// The same in phase two.
    pub unreported: usize,
    pub moved_unreported: usize,
}

pub struct Judged {
    pub answer: Answer,
    pub ties: Ties,
    /// The step at which SE90's phase one met a pivot at or below zero.
    pub not_positive: Option<usize>,
}

pub struct Run<'a> {
    pub n: usize,
    pub l: Square,
    pub e: Vec<f64>,
    pub p: Vec<usize>,
    pub step: usize,
    pub tied: Option<usize>,
    pub phase_two: Option<usize>,
    pub not_positive: Option<usize>,
    /// Of the roots taken on the diagonal so far, those that rounding changed.
    pub inexact: usize,
    pub ties: Ties,
    /// By rows of the matrix loaded.
    numbers: Option<&'a [u32]>,
}

impl<'a> Run<'a> {
    pub fn new(n: usize, a: &[f64], numbers: Option<&'a [u32]>) -> Self {
        Run {
            n,
            l: Square::new(n, a),
            e: vec![0.0; n],
            p: (0..n).collect(),
            step: 0,
            tied: None,
            phase_two: None,
            not_positive: None,
            inexact: 0,
            ties: Ties::default(),
            numbers,
        }
    }

    /// The root taken of `x` on the diagonal, about to be stored.
    pub fn root(&mut self, x: f64) -> Result<f64, NotFinite> {
        let root = stored(x.sqrt())?;
        self.inexact += usize::from(is_inexact(x));
        Ok(root)
    }

    /// The pivot among positions j and later: the largest value, the first in position among equals or,
    /// with numbers, the smallest number among equals.
    pub fn pick(&mut self, j: usize, value: impl Fn(usize) -> f64) -> usize {
        let most = largest((j..self.n).map(&value));
        let candidates: Vec<usize> = (j..self.n).filter(|&i| value(i) == most).collect();
        let picked = self.settled(&candidates);
        if candidates.len() > 1 {
            self.note(picked != candidates[0]);
        }
        picked
    }

    /// A position's number is that of the contract that stands there.
    fn settled(&self, candidates: &[usize]) -> usize {
        let number = |&position: &usize| self.numbers.map(|numbers| numbers[self.p[position]]);
        // min_by_key keeps the first of equals, and without numbers all are equal.
        let least = candidates.iter().copied().min_by_key(number);
        least.expect("the largest value is one of the values")
    }

    /// A tied search. Ties in phase two aren't reported.
    fn note(&mut self, moved: bool) {
        let ties = &mut self.ties;
        if self.phase_two.is_none() {
            self.tied.get_or_insert(self.step);
            ties.reported += 1;
            ties.moved += usize::from(moved);
        } else {
            ties.unreported += 1;
            ties.moved_unreported += usize::from(moved);
        }
    }

    /// Positions i and j of L and of p.
    pub fn exchange(&mut self, i: usize, j: usize) {
        self.l.exchange(i, j);
        self.p.swap(i, j);
    }

    /// L, e by rows of the matrix loaded, and p.
    pub fn factors(&self) -> (Vec<f64>, Vec<f64>, Vec<usize>) {
        let mut e = vec![0.0; self.n];
        for (t, &row) in self.p.iter().enumerate() {
            e[row] = self.e[t];
        }
        (self.l.entries().to_vec(), e, self.p.clone())
    }
}
