//! The generator's kinds: each with each method at small n, each at a middle n, some at 47 and 48.

use super::Entry;
use crate::generate::rng::Rng;
use crate::generate::Kind::{self, *};
use crate::generate::{matrix, KINDS};
use crate::{GMW81, SE90, SE99};

pub fn all() -> Vec<Entry> {
    small().chain(middle()).chain(large()).collect()
}

fn entry(kind: Kind, method: u8, n: usize, step: usize) -> Entry {
    let index = kind as u64 * 10_000 + n as u64 * 100 + step as u64;
    let mut rng = Rng::new(u64::from(method), index);
    Entry::of(
        format!("generated: {kind:?}"),
        method,
        &matrix(kind, method, n, step, &mut rng),
    )
}

fn small() -> impl Iterator<Item = Entry> {
    let cases = KINDS.iter().flat_map(|&kind| {
        (GMW81..=SE99).flat_map(move |method| (0..2).map(move |turn| (kind, method, turn)))
    });
    cases.map(|(kind, method, turn)| {
        let offset = kind as usize + usize::from(method);
        let n = 1 + (5 * offset + 7 * turn) % 12;
        entry(kind, method, n, (offset + turn) % n)
    })
}

const MIDDLE: [usize; 17] = [
    13, 32, 15, 25, 20, 14, 36, 17, 30, 18, 16, 22, 24, 27, 21, 19, 23,
];

fn middle() -> impl Iterator<Item = Entry> {
    let cases = KINDS.iter().zip(MIDDLE).enumerate();
    cases.map(|(index, (&kind, n))| entry(kind, GMW81 + (index % 3) as u8, n, n / 3))
}

const LARGE: [(Kind, u8, usize); 10] = [
    (PositiveDefinite, SE90, 48),
    (Indefinite, GMW81, 48),
    (Indefinite, SE90, 47),
    (NearSingular, SE99, 48),
    (SmallIntegers, GMW81, 47),
    (WideMagnitudes, SE90, 48),
    (Subnormal, GMW81, 48),
    (SignedZeros, SE99, 47),
    (EqualDiagonals, GMW81, 48),
    (Huge, SE90, 48),
];

fn large() -> impl Iterator<Item = Entry> {
    LARGE
        .iter()
        .map(|&(kind, method, n)| entry(kind, method, n, n / 2))
}
