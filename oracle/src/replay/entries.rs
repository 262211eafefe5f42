//! Refusals 7 and 8: entries that aren't finite, and pairs whose bits differ.

use super::Entry;
use crate::generate::rng::Rng;
use crate::generate::symmetric::Symmetric;
use crate::record::MAX_N;
use crate::{GMW81, SE90, SE99};

const METHODS: [u8; 3] = [GMW81, SE90, SE99];

pub fn all() -> Vec<Entry> {
    [
        patterns(),
        not_finite_places(),
        unsymmetric_places(),
        high_bits(),
        both(),
    ]
    .concat()
}

/// A place and the bits there.
type Change = (usize, usize, u64);

/// A symmetric matrix of n finite rows.
fn base(n: usize) -> Symmetric {
    let mut rng = Rng::new(78, n as u64);
    Symmetric::new(n, |_, _| rng.signed(1.0))
}

/// Changes single places, without their mirrors.
fn changed(n: usize, changes: &[Change]) -> Vec<f64> {
    let mut entries = base(n).into_entries();
    for &(i, j, bits) in changes {
        entries[i * n + j] = f64::from_bits(bits);
    }
    entries
}

/// The entry's bits with the lowest one turned.
fn last_bit(n: usize, i: usize, j: usize) -> Change {
    (i, j, base(n).get(i, j).to_bits() ^ 1)
}

const NAN: u64 = 0x7ff8_0000_0000_0000;
const INFINITY: u64 = 0x7ff0_0000_0000_0000;
const SIGN: u64 = 1 << 63;

/// Both infinities, and NaN with the first, the last, a middle and every payload bit.
fn patterns() -> Vec<Entry> {
    let sizes = [INFINITY, NAN, INFINITY | 1, INFINITY | 1 << 32, SIGN - 1];
    let both_signs = sizes.iter().flat_map(|&bits| [bits, bits | SIGN]);
    let one = |(index, bits)| {
        let matrix = changed(2, &[(1, 1, bits)]);
        Entry::of("7: bit patterns", METHODS[index % 3], &matrix)
    };
    both_signs.enumerate().map(one).collect()
}

fn not_finite_places() -> Vec<Entry> {
    let last = usize::from(MAX_N) - 1;
    let given: [(usize, &[Change]); 11] = [
        (1, &[(0, 0, NAN)]),
        (5, &[(0, 0, INFINITY)]),
        (5, &[(2, 2, NAN)]),
        (5, &[(4, 4, INFINITY | SIGN)]),
        (5, &[(1, 3, NAN), (3, 1, NAN)]),
        (5, &[(3, 1, INFINITY), (1, 3, INFINITY)]),
        (5, &[(4, 0, NAN)]),
        (5, &[(0, 4, NAN), (1, 0, INFINITY)]),
        (5, &[(2, 4, INFINITY), (3, 0, NAN)]),
        (5, &[(3, 3, INFINITY), (4, 4, INFINITY)]),
        (last + 1, &[(last, last, NAN)]),
    ];
    by_turns("7: places", &given)
}

fn unsymmetric_places() -> Vec<Entry> {
    let last = usize::from(MAX_N) - 1;
    let given: [(usize, &[Change]); 11] = [
        (2, &[last_bit(2, 0, 1)]),
        (2, &[last_bit(2, 1, 0)]),
        (5, &[last_bit(5, 0, 1)]),
        (5, &[last_bit(5, 1, 0)]),
        (5, &[last_bit(5, 3, 4)]),
        (5, &[last_bit(5, 4, 3)]),
        (5, &[last_bit(5, 0, 4)]),
        (5, &[last_bit(5, 1, 2), last_bit(5, 4, 0)]),
        (5, &[last_bit(5, 2, 1), last_bit(5, 3, 1)]),
        (5, &[last_bit(5, 2, 3), last_bit(5, 2, 4)]),
        (last + 1, &[last_bit(last + 1, last, last - 1)]),
    ];
    by_turns("8: places", &given)
}

fn high_bits() -> Vec<Entry> {
    let bits = |x: f64| x.to_bits();
    let given: [(usize, &[Change]); 4] = [
        (3, &[(0, 2, bits(0.0)), (2, 0, bits(-0.0))]),
        (3, &[(1, 2, bits(-0.0)), (2, 1, bits(0.0))]),
        (3, &[(0, 1, bits(0.5)), (1, 0, bits(-0.5))]),
        (3, &[(0, 1, bits(1.0)), (1, 0, bits(2.0))]),
    ];
    by_turns("8: signs and high bits", &given)
}

/// Unsymmetric, with an entry that isn't finite: 7, wherever it stands.
fn both() -> Vec<Entry> {
    let given: [(usize, &[Change]); 3] = [
        (4, &[last_bit(4, 0, 1), (3, 3, NAN)]),
        (4, &[(0, 0, INFINITY), last_bit(4, 2, 3)]),
        (4, &[(1, 2, NAN), (2, 1, NAN | 1)]),
    ];
    by_turns("7: unsymmetric too", &given)
}

/// The methods take turns.
fn by_turns(kind: &str, given: &[(usize, &[Change])]) -> Vec<Entry> {
    given
        .iter()
        .zip(METHODS.iter().cycle())
        .map(|((n, changes), method)| Entry::of(kind, *method, &changed(*n, changes)))
        .collect()
}
