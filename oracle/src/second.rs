//! The three methods once more, in plain loops, with the settling of ties as a parameter and SE90's test of the
//! pivot: the judge of matrices with contract numbers, and of those that meet a pivot at or below zero, of which
//! the Rust can't be asked. Written from documents 01 and 02, statement by statement beside the Rust and apart from
//! the port. On all others it has the Rust's bits: tests/second.rs and the comparison check that. Also the solving
//! that document 02 adds.

mod elimination;
mod gmw81;
mod last_rows;
mod phase_one;
mod phase_two;
mod run;
pub mod solve;
mod square;
mod words;

use crate::{fillings, is_accepted, Answer, COMPLETE, GMW81, NOT_FINITE, SE90, SE99};
pub use run::{Judged, Ties};
use run::{NotFinite, Run};
pub use words::TAU;
use words::{largest_magnitude, MU, TAU_BAR};

/// Factors a matrix that passes checks 2 to 8, and 12 and 13 where it has numbers.
pub fn factor(method: u8, n: usize, a: &[f64], numbers: Option<&[u32]>) -> Answer {
    judged(method, n, a, numbers).answer
}

/// Also the ties of its searches, and where SE90 met a pivot at or below zero.
pub fn judged(method: u8, n: usize, a: &[f64], numbers: Option<&[u32]>) -> Judged {
    assert!((GMW81..=SE99).contains(&method), "method {method}");
    assert!(
        n > 0 && is_accepted(n, a),
        "not a symmetric matrix of finite entries"
    );
    assert!(numbers.is_none_or(|numbers| numbers.len() == n));
    let mut run = Run::new(n, a, numbers);
    let outcome = match method {
        GMW81 => gmw81::run(&mut run),
        _ => schnabel_eskow(&mut run, variant(method)),
    };
    Judged {
        answer: answer(&run, outcome),
        ties: run.ties,
        not_positive: run.not_positive,
    }
}

/// What SE90 and SE99 differ in.
#[derive(Clone, Copy)]
struct Variant {
    method: u8,
    /// Phase one goes on while no diagonal entry ahead is below this share of gamma.
    ahead: f64,
    /// The share of gamma in phase two's amounts: tau in SE90, tau_bar in SE99.
    share: f64,
}

fn variant(method: u8) -> Variant {
    let (ahead, share) = match method {
        SE90 => (TAU, TAU),
        _ => (-MU, TAU_BAR),
    };
    Variant {
        method,
        ahead,
        share,
    }
}

fn schnabel_eskow(run: &mut Run, v: Variant) -> Result<(), NotFinite> {
    let gamma = largest_magnitude((0..run.n).map(|i| run.l[(i, i)]));
    if let Some(k) = phase_one::end(run, v, gamma)? {
        phase_two::from(run, v, gamma, k)?;
    }
    run.l.clear_upper();
    Ok(())
}

fn answer(run: &Run, outcome: Result<(), NotFinite>) -> Answer {
    let (refusal, step, inexact, (l, e, p)) = match outcome {
        Ok(()) => (COMPLETE, 0, run.inexact, run.factors()),
        Err(NotFinite) => (NOT_FINITE, run.step, 0, fillings(run.n)),
    };
    Answer {
        refusal,
        step,
        tied: run.tied,
        phase_two: run.phase_two,
        inexact,
        l,
        e,
        p,
    }
}
