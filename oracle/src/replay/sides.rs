//! Pairs on both sides of a test that ends phase one: one entry differs, with its mirror, by its last
//! bit, and the phase-two steps differ.

use super::phase_one::{phase_one, Test, TAU};
use super::Entry;
use crate::generate::edge::border;
use crate::generate::rng::Rng;
use crate::generate::symmetric::Symmetric;
use crate::generate::{matrix, Kind};
use crate::{SE90, SE99};

pub struct Pair {
    pub method: u8,
    pub test: Test,
    /// The first leaves phase one by this test, the second at a later step or never.
    pub matrices: [Symmetric; 2],
}

pub fn all() -> Vec<Entry> {
    pairs().iter().flat_map(entries).collect()
}

pub fn pairs() -> Vec<Pair> {
    at_equality().into_iter().chain(searched()).collect()
}

fn entries(pair: &Pair) -> [Entry; 2] {
    let kind = match (pair.method, pair.test) {
        (_, Test::Pivot) => "sides of SE90's test of the pivot",
        (SE90, _) => "sides of SE90's test of tmp",
        (_, Test::Tmp) => "sides of SE99's test of tmp",
        (_, Test::AiiMax) => "sides of SE99's test of aii_max",
        (_, Test::AiiMin) => "sides of SE99's test of aii_min",
    };
    [0, 1].map(|side| Entry::of(kind, pair.method, pair.matrices[side].entries()))
}

/// Small ones. At SE90's test of the pivot the first matrix meets the bound exactly; else, but for SE99's tmp, the
/// second does.
fn at_equality() -> Vec<Pair> {
    let (unit, small) = (f64::from_bits(1), 2f64.powi(-650));
    let given: [(u8, &[f64]); 9] = [
        (SE90, &[unit]),
        (SE90, &[unit, 0.0, 0.0, unit]),
        (
            SE90,
            &[4.0 * small, 2.0 * small, 2.0 * small, small.next_up()],
        ),
        (SE90, &[1.0, 0.0, 0.0, TAU]),
        (SE90, &[4.0, 0.0, 0.0, 0.0, 1.0, 0.0, 0.0, 0.0, 4.0 * TAU]),
        (SE99, &[1.0, 0.0, 0.0, TAU]),
        (SE99, &[1.0, 0.0, 0.0, -0.1]),
        (SE99, &[1.0, 0.0, 0.0, 0.0, 0.5, 0.0, 0.0, 0.0, -0.1]),
        (SE99, &[1.0, 1.0, 1.0, 0.9]),
    ];
    given.map(|(method, a)| below_the_last(method, a)).into()
}

/// The last entry goes one double down.
fn below_the_last(method: u8, entries: &[f64]) -> Pair {
    let n = entries.len().isqrt();
    let stays = Symmetric::from_entries(n, entries);
    let leaves = stays.with(n - 1, n - 1, entries[n * n - 1].next_down());
    pair(method, leaves, stays).expect("the last entry decides")
}

/// `leaves` fails a test that `stays` passes, after the same pivots.
fn pair(method: u8, leaves: Symmetric, stays: Symmetric) -> Option<Pair> {
    let [first, second] = [&leaves, &stays].map(|matrix| phase_one(method, matrix));
    let (step, test) = first.end?;
    let later = second.end.is_none_or(|(other, _)| other > step);
    (later && second.pivots.starts_with(&first.pivots)).then_some(Pair {
        method,
        test,
        matrices: [leaves, stays],
    })
}

/// What is looked for: method, test, n, step, and whether the entry is on the diagonal.
type Aim = (u8, Test, usize, usize, bool);

fn searched() -> Vec<Pair> {
    let aims: [Aim; 15] = [
        (SE90, Test::Tmp, 3, 1, true),
        (SE90, Test::Tmp, 5, 0, false),
        (SE90, Test::Tmp, 9, 4, true),
        (SE90, Test::Tmp, 9, 7, false),
        (SE90, Test::Tmp, 48, 23, false),
        (SE99, Test::Tmp, 4, 1, true),
        (SE99, Test::Tmp, 5, 2, false),
        (SE99, Test::Tmp, 9, 4, false),
        (SE99, Test::Tmp, 48, 31, false),
        (SE99, Test::AiiMin, 3, 1, true),
        (SE99, Test::AiiMin, 9, 5, false),
        (SE99, Test::AiiMin, 48, 16, true),
        (SE99, Test::AiiMax, 3, 1, true),
        (SE99, Test::AiiMax, 9, 8, true),
        (SE99, Test::AiiMax, 17, 9, true),
    ];
    aims.into_iter().map(search).collect()
}

fn search(aim: Aim) -> Pair {
    (0..)
        .find_map(|seed| try_seed(aim, &mut Rng::new(90, seed)))
        .expect("there is always another seed")
}

/// Moves one entry to where phase one no longer ends at the aim's step and test.
fn try_seed((method, test, n, step, diagonal): Aim, rng: &mut Rng) -> Option<Pair> {
    let start = match test {
        Test::AiiMax => small_remainder(n, step, rng),
        _ => generated(method, n, step, rng),
    };
    let i = rng.below(n);
    let j = if diagonal {
        i
    } else {
        (i + 1 + rng.below(n - 1)) % n
    };
    let at = |entry: f64| start.with(i, j, entry);
    let leaves = |entry: f64| phase_one(method, &at(entry)).end == Some((step, test));
    let from = Some(start.get(i, j)).filter(|&entry| leaves(entry))?;
    let end = [1e-3, -1e-3, 0.3, -0.3, 2.0, -2.0]
        .into_iter()
        .map(|change| from + change)
        .find(|&entry| !leaves(entry))?;
    let (last, next) = border(from, end, leaves);
    pair(method, at(last), at(next))
}

fn generated(method: u8, n: usize, step: usize, rng: &mut Rng) -> Symmetric {
    let entries = matrix(Kind::PhaseTwoAtStep, method, n, step, rng);
    Symmetric::from_entries(n, &entries)
}

/// What is left after `steps` steps is so small that SE99's test of aii_max ends phase one.
fn small_remainder(n: usize, steps: usize, rng: &mut Rng) -> Symmetric {
    let columns: Vec<f64> = (0..n * steps).map(|_| rng.signed(0.5)).collect();
    let column = |s: usize, i: usize| match i == s {
        true => 1.0,
        false if i < s => 0.0,
        false => columns[s * n + i],
    };
    Symmetric::new(n, |i, j| {
        let product: f64 = (0..steps).map(|s| 4.0 * column(s, i) * column(s, j)).sum();
        let rest = match (j < steps, i == j) {
            (true, _) => 0.0,
            (_, true) => TAU * rng.within(0.5, 2.0),
            (_, false) => TAU * rng.signed(0.1),
        };
        product + rest
    })
    .reloaded(&rng.permutation(n))
}
