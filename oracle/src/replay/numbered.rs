//! Records with contract numbers: ties settled by them, refusals 12 and 13, and field 04 cut, out of
//! place and of other lengths.

use super::{of_kind, Entry};
use crate::generate::rng::Rng;
use crate::generate::{Kind, KINDS};
use crate::numbered::{Numbered, Sort, TYING};
use crate::record::{
    bytes, number_bytes, numbered_record, of_fields, sized_numbered_record, LONGEST, MAX_N,
    NUMBERED_DUE,
};
use crate::{GMW81, SE90, SE99};

pub const SMALLEST: &str = "numbered: smallest tie";
pub const TIES: &str = "numbered: ties";
pub const LOADINGS: &str = "numbered: two loadings";
pub const CUT: &str = "10: numbered, cut";
pub const TAGS: &str = "11: numbered, every tag";
pub const ORDERS: &str = "11: field 04 elsewhere";
pub const REPEATED: &str = "13: places";
pub const ORDER: &str = "order of checks with numbers";

pub fn all() -> Vec<Entry> {
    [
        of_kind(SMALLEST, smallest_tie()),
        of_kind(TIES, ties()),
        of_kind("numbered: generated", generated()),
        of_kind(LOADINGS, loadings()),
        of_kind(CUT, cut()),
        of_kind(TAGS, tags()),
        of_kind(ORDERS, orders()),
        of_kind("1: numbered", malformed()),
        of_kind("12: length", lengths()),
        of_kind(REPEATED, repeated()),
        of_kind(ORDER, order()),
    ]
    .concat()
}

/// The diagonal 1, 1, 3 with its contracts numbered in every order.
fn smallest_tie() -> Vec<Vec<u8>> {
    let diagonal = [1.0, 0.0, 0.0, 0.0, 1.0, 0.0, 0.0, 0.0, 3.0];
    let orders = [
        [0, 1, 2],
        [0, 2, 1],
        [1, 0, 2],
        [1, 2, 0],
        [2, 0, 1],
        [2, 1, 0],
    ];
    let one = |method: u8| orders.map(|numbers| numbered_record(method, 3, &numbers, &diagonal));
    (GMW81..=SE99).flat_map(one).collect()
}

fn made(sort: Sort, method: u8, n: usize, seed: usize) -> Numbered {
    let mut rng = Rng::new(seed as u64, u64::from(method) * 100 + n as u64);
    Numbered::new(sort, method, n, &mut rng)
}

/// Each sort with each method, at a small and a middle n; four at a large one.
fn ties() -> Vec<Vec<u8>> {
    let sorts = TYING.into_iter().enumerate();
    let each = sorts.flat_map(|(index, sort)| (GMW81..=SE99).map(move |m| (index, sort, m)));
    let both = each.flat_map(|(index, sort, method)| {
        let turn = 3 * index + usize::from(method);
        [3 + turn % 8, 12 + turn % 11].map(|n| made(sort, method, n, index).record())
    });
    let large = [
        (Sort::Of(Kind::EqualDiagonals), GMW81, 48),
        (Sort::Of(Kind::TiedByRounding), SE99, 48),
        (Sort::Groups, SE90, 48),
        (Sort::Levelled, SE99, 47),
    ];
    let large = large.map(|(sort, method, n)| made(sort, method, n, 5).record());
    both.chain(large).collect()
}

/// The generator's kinds, the methods by turns.
fn generated() -> Vec<Vec<u8>> {
    let one = |(index, kind): (usize, Kind)| {
        let method = GMW81 + (index % 3) as u8;
        made(Sort::Of(kind), method, 1 + (7 * index) % 11, 9).record()
    };
    KINDS.into_iter().enumerate().map(one).collect()
}

/// A matrix, and its reloading with the numbers of its contracts.
fn loadings() -> Vec<Vec<u8>> {
    let both = |(index, sort): (usize, Sort)| {
        let n = 4 + index;
        let first = made(sort, GMW81, n, 7);
        let second = first.reloaded(&Rng::new(8, index as u64).permutation(n));
        [first.record(), second.record()]
    };
    TYING.into_iter().enumerate().flat_map(both).collect()
}

/// Of one row, with the number 7.
fn small() -> Vec<u8> {
    numbered_record(GMW81, 1, &[7], &[4.0])
}

/// Where its fields 2 and 3 start, and its end.
const STARTS: [usize; 3] = [8, 15, 26];

/// At every byte after the tag of field 04, also with a wrong tag in the cut field.
fn cut() -> Vec<Vec<u8>> {
    let plain = (STARTS[0] + 1..STARTS[2]).map(|end| small()[..end].to_vec());
    let tagged = (STARTS[1] + 1..STARTS[2]).map(|end| with_tag(STARTS[1], 0x07)[..end].to_vec());
    let two_rows = numbered_record(SE99, 2, &[1, 2], &[1.0; 4]);
    let more = (STARTS[0] + 1..two_rows.len()).map(|end| two_rows[..end].to_vec());
    plain.chain(tagged).chain(more).collect()
}

fn with_tag(start: usize, tag: u8) -> Vec<u8> {
    let mut out = small();
    out[start] = tag;
    out
}

/// Every one that isn't due after field 04.
fn tags() -> Vec<Vec<u8>> {
    let tags = (0..=255).filter(|&tag| tag != 0x03);
    tags.map(|tag| with_tag(STARTS[1], tag)).collect()
}

/// The fields of one row in the order of these tags.
fn ordered(tags: &[u8]) -> Vec<u8> {
    let (number, entry) = (number_bytes(&[7]), bytes(&[4.0]));
    let content = |tag: &u8| match tag {
        0x01 => &[1][..],
        0x02 => &[GMW81],
        0x03 => &entry,
        _ => &number,
    };
    let contents: Vec<&[u8]> = tags.iter().map(content).collect();
    of_fields(tags, &contents)
}

/// First, second, twice, without the method; 05 for it and after it.
fn orders() -> Vec<Vec<u8>> {
    let orders: [&[u8]; 8] = [
        &[4, 1, 2, 3],
        &[1, 4, 2, 3],
        &[1, 2, 4, 4, 3],
        &[1, 4, 3],
        &[4, 3],
        &[1, 2, 5, 3],
        &[1, 2, 5, 4, 3],
        &[1, 2, 4, 5, 3],
    ];
    orders.map(ordered).to_vec()
}

/// Wrong first lengths, something after, and one byte too long.
fn malformed() -> Vec<Vec<u8>> {
    let (number, entry) = (number_bytes(&[7]), bytes(&[4.0]));
    let sized = |n: &[u8], method: &[u8]| sized_numbered_record(n, method, &number, &entry);
    let long: Vec<u32> = (0..48).collect();
    let numbers = [&number_bytes(&long)[..], &[0]].concat();
    let too_long = sized_numbered_record(&[MAX_N], &[SE90], &numbers, &bytes(&[1.0; 48 * 48]));
    assert_eq!(too_long.len(), LONGEST + 1);
    vec![
        sized(&[], &[GMW81]),
        sized(&[1, 1], &[GMW81]),
        sized(&[1], &[]),
        sized(&[1], &[GMW81, GMW81]),
        [&small()[..], &[0]].concat(),
        ordered(&[1, 2, 3, 4]),
        ordered(&[1, 2, 4, 3, 4]),
        ordered(&[1, 2, 4, 3, 5]),
        too_long,
    ]
}

/// Of n rows whose entries are all not finite, with so many bytes of numbers.
fn of_length(method: u8, n: u8, length: usize) -> Vec<u8> {
    let entries = bytes(&vec![f64::NAN; usize::from(n).pow(2)]);
    sized_numbered_record(&[n], &[method], &vec![1; length], &entries)
}

fn lengths() -> Vec<Vec<u8>> {
    let given = [
        (GMW81, 1, 0),
        (SE90, 1, 3),
        (SE99, 1, 5),
        (GMW81, 1, 8),
        (SE90, 2, 0),
        (SE99, 2, 4),
        (GMW81, 2, 7),
        (SE90, 2, 9),
        (SE99, 2, 12),
        (GMW81, 3, 11),
        (SE90, 3, 24),
        (SE99, 48, 0),
        (GMW81, 48, 191),
    ];
    given.map(|(m, n, length)| of_length(m, n, length)).to_vec()
}

/// Numbers and the place of their refusal.
pub fn repeats() -> Vec<(Vec<u32>, u8)> {
    let last: Vec<u32> = (0..47).chain([46]).collect();
    let first: Vec<u32> = [46].into_iter().chain(0..47).collect();
    vec![
        (vec![5, 5], 1),
        (vec![0, 0, 0], 1),
        (vec![1, 2, 1], 2),
        (vec![1, 2, 2], 2),
        (vec![1, 2, 2, 1], 2),
        (vec![1, 2, 3, 1], 3),
        (vec![1, 2, 3, 2, 1], 3),
        (vec![u32::MAX, 1 << 24, 1, u32::MAX], 3),
        (last, 47),
        (first, 47),
    ]
}

fn repeated() -> Vec<Vec<u8>> {
    let methods = [GMW81, SE90, SE99].into_iter().cycle();
    let given = repeats().into_iter().zip(methods);
    let one = |((numbers, _), method): ((Vec<u32>, u8), u8)| {
        let n = numbers.len();
        numbered_record(method, n as u8, &numbers, &vec![f64::INFINITY; n * n])
    };
    given.map(one).collect()
}

/// Each fails the check it is listed for and, if there are any, later ones.
fn order() -> Vec<Vec<u8>> {
    let nan = bytes(&[f64::NAN; 4]);
    let unsymmetric = bytes(&[1.0, 0.0, -0.0, 1.0]);
    let record = |method: u8, n: u8, numbers: &[u8], entries: &[u8]| {
        of_fields(&NUMBERED_DUE, &[&[n], &[method], numbers, entries])
    };
    vec![
        record(4, 0, &[1; 7], &nan[1..]),
        record(SE90, 0, &[1; 7], &nan[1..]),
        record(SE99, 49, &[1; 8], &nan),
        record(GMW81, 2, &[1; 7], &nan[1..]),
        record(SE90, 2, &[1; 12], &nan),
        record(SE99, 2, &[1; 8], &nan),
        record(GMW81, 2, &[1, 0, 0, 0, 1, 0, 0, 1], &nan),
        record(SE90, 2, &[0, 1, 0, 0, 1, 0, 0, 0], &unsymmetric),
    ]
}
