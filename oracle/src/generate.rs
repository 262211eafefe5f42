//! Matrices of every kind that a comparison should meet. The same seed gives the same matrices.

mod aimed;
pub(crate) mod edge;
mod pivots;
mod plain;
pub mod rng;
pub(crate) mod symmetric;

use crate::{GMW81, SE90, SE99};
use rng::Rng;
use std::collections::BTreeSet;
use symmetric::Symmetric;

macro_rules! kinds {
    ($($kind:ident,)*) => {
        #[derive(Clone, Copy, Debug, PartialEq)]
        pub enum Kind {
            $($kind,)*
        }

        /// Every kind once.
        pub const KINDS: [Kind; [$(Kind::$kind),*].len()] = [$(Kind::$kind),*];
    };
}

kinds! {
    PositiveDefinite,
    Indefinite,
    NearSingular,
    EqualDiagonals,
    ZeroDiagonals,
    TiedByRounding,
    SmallIntegers,
    WideMagnitudes,
    SignedZeros,
    Subnormal,
    Huge,
    RangeEnds,
    OverflowHalfWay,
    PhaseTwoAtStep,
    RefusedAtStep,
    LastBit,
    PivotNotPositive,
}

use Kind::*;

/// One round of kinds. Those that aim at a step come more often, so that few cases reach each step.
const ROUND: [Kind; 26] = [
    PhaseTwoAtStep,
    PositiveDefinite,
    RefusedAtStep,
    Indefinite,
    TiedByRounding,
    NearSingular,
    PhaseTwoAtStep,
    EqualDiagonals,
    RefusedAtStep,
    PivotNotPositive,
    ZeroDiagonals,
    OverflowHalfWay,
    SmallIntegers,
    PhaseTwoAtStep,
    WideMagnitudes,
    RefusedAtStep,
    SignedZeros,
    TiedByRounding,
    Subnormal,
    PhaseTwoAtStep,
    Huge,
    RefusedAtStep,
    RangeEnds,
    PivotNotPositive,
    OverflowHalfWay,
    LastBit,
];

#[derive(Clone, Debug)]
pub struct Case {
    pub kind: Kind,
    pub method: u8,
    pub n: usize,
    pub matrix: Vec<f64>,
}

/// `count` cases with 1 to `max_n` rows. The methods take turns.
pub fn cases(count: usize, max_n: usize, seed: u64) -> impl Iterator<Item = Case> {
    assert!(max_n > 0);
    (0..count).map(move |index| case(index, max_n, seed))
}

fn case(index: usize, max_n: usize, seed: u64) -> Case {
    let methods = usize::from(SE99);
    let method = GMW81 + (index % methods) as u8;
    let slot = index / methods;
    let kind = ROUND[slot % ROUND.len()];
    let offset = seed.wrapping_add(3 * kind as u64);
    let (n, step) = size_and_step(turn(slot), max_n, offset);
    let matrix = matrix(kind, method, n, step, &mut Rng::new(seed, index as u64));
    Case {
        kind,
        method,
        n,
        matrix,
    }
}

/// SE90 of every n, with a pivot at or below zero at the first, a middle and the last step. The same at every call.
pub fn pivot_list() -> Vec<Case> {
    let steps = |n: usize| BTreeSet::from([0, n / 2, n - 1]);
    let aims = (1..=48).flat_map(|n| steps(n).into_iter().map(move |step| (n, step)));
    let case = |(n, step): (usize, usize)| {
        let mut rng = Rng::new(n as u64, step as u64);
        Case {
            kind: PivotNotPositive,
            method: SE90,
            n,
            matrix: matrix(PivotNotPositive, SE90, n, step, &mut rng),
        }
    };
    aims.map(case).collect()
}

/// How many slots before this one had the same kind.
fn turn(slot: usize) -> usize {
    let (round, place) = (slot / ROUND.len(), slot % ROUND.len());
    let same = |kinds: &[Kind]| kinds.iter().filter(|&&k| k == ROUND[place]).count();
    round * same(&ROUND) + same(&ROUND[..place])
}

/// Goes over every n and every step below n, with neighbours far apart.
fn size_and_step(turn: usize, max_n: usize, offset: u64) -> (usize, usize) {
    let total = max_n * (max_n + 1) / 2;
    let stride = (total * 5 / 8..)
        .find(|&s| s > 0 && gcd(s, total) == 1)
        .unwrap();
    let mut step = (turn * stride + (offset % total as u64) as usize) % total;
    let mut n = 1;
    while step >= n {
        step -= n;
        n += 1;
    }
    (n, step)
}

fn gcd(a: usize, b: usize) -> usize {
    if b == 0 {
        a
    } else {
        gcd(b, a % b)
    }
}

/// A matrix for `method` with n rows, loaded in a random order. The kinds that aim at a step aim at
/// `step`, where the method can get there.
pub fn matrix(kind: Kind, method: u8, n: usize, step: usize, rng: &mut Rng) -> Vec<f64> {
    let made: Symmetric = match kind {
        PositiveDefinite => plain::positive_definite(n, rng),
        Indefinite => plain::indefinite(n, rng),
        NearSingular => plain::near_singular(n, rng),
        EqualDiagonals => plain::equal_diagonals(n, rng),
        ZeroDiagonals => plain::zero_diagonals(n, rng),
        SmallIntegers => plain::small_integers(n, rng),
        WideMagnitudes => plain::wide_magnitudes(n, rng),
        SignedZeros => plain::signed_zeros(n, rng),
        Subnormal => plain::subnormal(n, rng),
        Huge => plain::huge(n, rng),
        RangeEnds => plain::range_ends(n, rng),
        TiedByRounding => aimed::tied_by_rounding(method, n, step, rng),
        OverflowHalfWay => aimed::overflow_half_way(method, n, step, rng),
        PhaseTwoAtStep => aimed::phase_two_at(method, n, step, rng),
        RefusedAtStep => aimed::refused_at(method, n, step, rng),
        LastBit => edge::last_bit(method, n, step, rng),
        PivotNotPositive => pivots::not_positive(n, step, rng),
    };
    made.reloaded(&rng.permutation(n)).into_entries()
}

#[cfg(test)]
mod tests;
