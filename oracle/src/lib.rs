//! The Rust that document 01 lists, asked for its answers in that document's terms; where it can't be asked, the
//! second implementation.

pub mod generate;
pub mod helpers;
pub mod numbered;
pub mod operands;
pub mod record;
pub mod replay;
pub mod roots;
pub mod second;
pub mod systems;
pub mod table;

use modcholesky::{Decomposition, ModCholeskyGMW81, ModCholeskySE90, ModCholeskySE99};
use ndarray::{Array1, Array2};
use std::panic::catch_unwind;
pub use watch::is_inexact;

pub const GMW81: u8 = 1;
pub const SE90: u8 = 2;
pub const SE99: u8 = 3;

pub const COMPLETE: u8 = 0;
pub const NOT_FINITE: u8 = 9;
/// No refusal of document 01: the Rust panicked in a run whose stored values were all finite.
pub const PANICKED: u8 = 255;

#[derive(Clone, Debug, PartialEq)]
pub struct Answer {
    pub refusal: u8,
    /// The refused step; 0 in a complete run.
    pub step: usize,
    pub tied: Option<usize>,
    pub phase_two: Option<usize>,
    /// How many of the n roots on the diagonal rounding changed; 0 beside a refusal.
    pub inexact: usize,
    pub l: Vec<f64>,
    pub e: Vec<f64>,
    pub p: Vec<usize>,
}

type Factors = Decomposition<Array2<f64>, Array1<f64>, Array1<usize>>;

/// The Rust's answer, and whether documents 01 and 02 ask for it.
pub struct Watched {
    pub answer: Answer,
    /// The step at which SE90's phase one met a pivot at or below zero. Document 02 ends the phase there.
    pub not_positive: Option<usize>,
}

impl Watched {
    /// Nothing where SE90 met such a pivot.
    pub fn asked(self) -> Option<Answer> {
        self.not_positive.is_none().then_some(self.answer)
    }
}

/// What documents 01 and 02 ask for: the Rust's answer or, where it can't be asked, the second implementation's.
/// The Rust knows neither numbers nor SE90's test of the pivot.
pub fn answer(method: u8, n: usize, a: &[f64], numbers: Option<&[u32]>) -> Answer {
    let rust = match numbers {
        None => asked(method, n, a),
        Some(_) => None,
    };
    rust.unwrap_or_else(|| second::factor(method, n, a, numbers))
}

/// The Rust's answer, if it can be asked.
pub fn asked(method: u8, n: usize, a: &[f64]) -> Option<Answer> {
    watched(method, n, a).asked()
}

/// The Rust's answer in any case.
pub fn factor(method: u8, n: usize, a: &[f64]) -> Answer {
    watched(method, n, a).answer
}

/// Factors a matrix that passes checks 2 to 8; any other is a caller's fault and panics.
pub fn watched(method: u8, n: usize, a: &[f64]) -> Watched {
    assert!((GMW81..=SE99).contains(&method), "method {method}");
    assert!(
        n > 0 && is_accepted(n, a),
        "not a symmetric matrix of finite entries"
    );
    watch::begin();
    let factors = catch_unwind(|| lists(run(method, n, a)));
    let marks = watch::end();
    let (refusal, (l, e, p)) = match (marks.refused, factors) {
        (None, Ok(lists)) => (COMPLETE, lists),
        (None, Err(_)) => (PANICKED, fillings(n)),
        (Some(_), _) => (NOT_FINITE, fillings(n)),
    };
    let answer = Answer {
        refusal,
        step: marks.refused.unwrap_or(0),
        tied: marks.tied,
        phase_two: marks.phase_two,
        inexact: marks.inexact,
        l,
        e,
        p,
    };
    Watched {
        answer,
        not_positive: marks.not_positive,
    }
}

/// Whether a matrix has n * n finite entries and is symmetric by its bits.
pub fn is_accepted(n: usize, a: &[f64]) -> bool {
    let same = |i: usize, j: usize| a[i * n + j].to_bits() == a[j * n + i].to_bits();
    a.len() == n * n
        && a.iter().all(|x| x.is_finite())
        && (0..n).all(|i| (0..i).all(|j| same(i, j)))
}

fn run(method: u8, n: usize, a: &[f64]) -> Factors {
    let matrix = Array2::from_shape_vec((n, n), a.to_vec()).unwrap();
    match method {
        GMW81 => matrix.mod_cholesky_gmw81(),
        SE90 => matrix.mod_cholesky_se90(),
        _ => matrix.mod_cholesky_se99(),
    }
}

fn lists(factors: Factors) -> (Vec<f64>, Vec<f64>, Vec<usize>) {
    (
        factors.l.into_raw_vec(),
        factors.e.into_raw_vec(),
        factors.p.into_raw_vec(),
    )
}

/// What refusal 9 writes.
fn fillings(n: usize) -> (Vec<f64>, Vec<f64>, Vec<usize>) {
    (vec![0.0; n * n], vec![0.0; n], (0..n).collect())
}
