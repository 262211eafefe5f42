//! Refusal 9: at the first, a middle and the last step, half way, and after marks.

use super::Entry;
use crate::generate::rng::Rng;
use crate::generate::symmetric::Symmetric;
use crate::generate::{matrix, Kind};
use crate::{GMW81, SE99};
use std::collections::BTreeSet;

pub const AT_STEP: &str = "9: first, middle and last step";
pub const HALF_WAY: &str = "9: infinite half way";

pub fn all() -> Vec<Entry> {
    let at_step = aims().into_iter().map(|aim| entry(AT_STEP, aim));
    let half_way = half_ways().into_iter().map(|aim| entry(HALF_WAY, aim));
    at_step.chain(half_way).chain(after_a_tie()).collect()
}

/// Method, n, and the step that is refused.
pub type Aim = (u8, usize, usize);

pub fn aims() -> Vec<Aim> {
    let sizes = (GMW81..=SE99).flat_map(|method| [1, 2, 5, 48].map(|n| (method, n)));
    sizes
        .flat_map(|(method, n)| steps(method, n).into_iter().map(move |s| (method, n, s)))
        .collect()
}

/// First, middle and last step, each once; at 48 rows the last only.
fn steps(method: u8, n: usize) -> BTreeSet<usize> {
    let last = last_step(method, n);
    let all = if n == 48 {
        vec![last]
    } else {
        vec![0, last.div_ceil(2), last]
    };
    all.into_iter().collect()
}

/// SE90 and SE99 are refused at step n - 1 only if n is 1.
fn last_step(method: u8, n: usize) -> usize {
    if method != GMW81 && n > 1 {
        n - 2
    } else {
        n - 1
    }
}

pub fn half_ways() -> Vec<Aim> {
    (GMW81..=SE99)
        .flat_map(|method| [4, 9, 48].map(|n| (method, n, n / 2)))
        .collect()
}

fn entry(kind: &str, (method, n, step): Aim) -> Entry {
    let made = match kind {
        HALF_WAY => Kind::OverflowHalfWay,
        _ => Kind::RefusedAtStep,
    };
    let mut rng = Rng::new(9, (n * 100 + step) as u64);
    Entry::of(kind, method, &matrix(made, method, n, step, &mut rng))
}

/// A tie at step 0, refused at step 2, where SE90 and SE99 also enter phase two.
fn after_a_tie() -> impl Iterator<Item = Entry> {
    (GMW81..=SE99).map(|method| {
        let made = if method == GMW81 {
            tied_then_negative()
        } else {
            tied_then_wide_circles()
        };
        Entry::of("9: after a tie", method, made.entries())
    })
}

fn tied_then_negative() -> Symmetric {
    let diagonal = [0.9, 0.9, -0.8, 0.3, 0.2];
    Symmetric::new(5, |i, j| if i == j { diagonal[i] * f64::MAX } else { 0.0 })
}

fn tied_then_wide_circles() -> Symmetric {
    let diagonal = [0.9, 0.3, 0.9, 0.2, 0.1];
    let pivot = |i: usize| diagonal[i] == 0.9;
    let part = |i: usize, j: usize| match i == j {
        true => diagonal[i],
        false if pivot(i) || pivot(j) => 0.0,
        false => 0.7,
    };
    Symmetric::new(5, |i, j| part(i, j) * f64::MAX)
}
