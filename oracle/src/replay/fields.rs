//! Refusals 1, 10 and 11: a record's fields, cut, with other tags and lengths, and with bytes after.

use super::{of_kind, Entry};
use crate::record::{bytes, matrix_record, sized_record, DUE, LONGEST, MAX_N};
use crate::{GMW81, SE90, SE99};

pub const CUT: &str = "10: cut at every byte";
pub const CUT_WITH_TAG: &str = "10: cut, with a wrong tag";
pub const PAST_END: &str = "10: length past the end";
pub const CUT_AFTER_LENGTH: &str = "10: after a wrong length";
pub const TAGS: &str = "11: every tag";
pub const ORDERS: &str = "11: fields in other orders";
pub const LATER_FAULT: &str = "11: before a later fault";
pub const TAG_AND_LENGTH: &str = "11: with a wrong length";

pub fn all() -> Vec<Entry> {
    [
        of_kind(CUT, cut()),
        of_kind(CUT_WITH_TAG, cut_with_tag()),
        of_kind(PAST_END, past_end()),
        of_kind(CUT_AFTER_LENGTH, cut_after_length()),
        of_kind(TAGS, tags()),
        of_kind(ORDERS, orders()),
        of_kind(LATER_FAULT, later_fault()),
        of_kind(TAG_AND_LENGTH, tag_and_length()),
        of_kind("1: first lengths", first_lengths()),
        of_kind("1: something after", something_after()),
        of_kind("1: one byte too long", too_long()),
    ]
    .concat()
}

/// The contents of the fields of a matrix of one row.
fn contents() -> [Vec<u8>; DUE.len()] {
    [vec![1], vec![GMW81], bytes(&[4.0])]
}

fn small() -> Vec<u8> {
    matrix_record(GMW81, 1, &[4.0])
}

/// Where the fields of the record of one row start, and its end.
pub const STARTS: [usize; DUE.len() + 1] = [0, 4, 8, 19];

/// No field's.
const OTHER_TAG: u8 = 0x07;

/// The record of one row with other bytes at some places.
fn with(changes: &[(usize, u8)]) -> Vec<u8> {
    let mut out = small();
    for &(at, byte) in changes {
        out[at] = byte;
    }
    out
}

fn with_tag(field: usize, tag: u8) -> Vec<u8> {
    with(&[(STARTS[field], tag)])
}

/// Cut to each length of the range.
fn cuts(record: &[u8], lengths: std::ops::Range<usize>) -> Vec<Vec<u8>> {
    lengths.map(|end| record[..end].to_vec()).collect()
}

/// Two records up to n are the same.
fn cut() -> Vec<Vec<u8>> {
    let two_rows = matrix_record(SE99, 2, &[1.0; 4]);
    [
        cuts(&small(), 0..small().len()),
        cuts(&two_rows, 4..two_rows.len()),
    ]
    .concat()
}

fn cut_with_tag() -> Vec<Vec<u8>> {
    let in_field = |field| {
        let inside = STARTS[field] + 1..STARTS[field + 1];
        cuts(&with_tag(field, OTHER_TAG), inside)
    };
    (0..DUE.len()).flat_map(in_field).collect()
}

/// The length ends at the record's end, or a byte after it; its high byte isn't 0; its bytes are
/// exchanged; the tag is wrong too, or a later one.
fn past_end() -> Vec<Vec<u8>> {
    let near = [[(1, 16)], [(1, 17)], [(5, 12)], [(5, 13)], [(9, 9)]];
    let high = [[(2, 1)], [(6, 1)], [(10, 1)], [(10, 255)]];
    let exchanged = [[(1, 0), (2, 1)], [(5, 0), (6, 1)], [(9, 0), (10, 8)]];
    let tags = [0, 4, 8].map(|start| [(start, OTHER_TAG), (start + 2, 1)]);
    let later = [[(2, 1), (4, OTHER_TAG)], [(6, 1), (8, OTHER_TAG)]];
    let one = near.iter().chain(&high).map(|change| with(change));
    let two = exchanged.iter().chain(&tags).chain(&later);
    one.chain(two.map(|changes| with(changes))).collect()
}

/// The record of one row with a length of field 01 or 02 that isn't 1.
fn wrong_lengths(field: usize) -> [Vec<u8>; 2] {
    [vec![], vec![1, 1]].map(|content| with_content(field, content))
}

fn with_content(field: usize, content: Vec<u8>) -> Vec<u8> {
    let mut contents = contents();
    contents[field] = content;
    let [n, method, entries] = contents;
    sized_record(&n, &method, &entries)
}

/// Where a field after the wrong length starts.
fn start_from_end(record: &[u8], field: usize) -> usize {
    record.len() - (small().len() - STARTS[field])
}

/// At every byte after the field.
fn cut_after_length() -> Vec<Vec<u8>> {
    let later = |field: usize| {
        let own = wrong_lengths(field).map(|record| {
            let next = start_from_end(&record, field + 1);
            cuts(&record, next..record.len())
        });
        own.concat()
    };
    [later(0), later(1)].concat()
}

/// Every one that isn't due; before the entries 04 is.
fn tags() -> Vec<Vec<u8>> {
    let due = |field: usize, tag: u8| tag == DUE[field] || (field == 2 && tag == 0x04);
    let others = |field| {
        let tags = (0..=255).filter(move |tag| !due(field, *tag));
        tags.map(move |tag| with_tag(field, tag))
    };
    (0..DUE.len()).flat_map(others).collect()
}

/// Out of order, missing and twice.
fn orders() -> Vec<Vec<u8>> {
    let record = small();
    let orders: [&[usize]; 9] = [
        &[0, 2, 1],
        &[1, 0, 2],
        &[1, 2, 0],
        &[2, 0, 1],
        &[2, 1, 0],
        &[0, 2],
        &[1, 2],
        &[0, 1, 1],
        &[0, 0, 1, 2],
    ];
    let field = |&i: &usize| record[STARTS[i]..STARTS[i + 1]].to_vec();
    orders
        .map(|order| order.iter().flat_map(field).collect())
        .to_vec()
}

/// A cut at every byte after the field, a second wrong tag, a later length past the end, bytes after.
fn later_fault() -> Vec<Vec<u8>> {
    let cut = |field: usize| {
        let record = with_tag(field, OTHER_TAG);
        cuts(&record, STARTS[field + 1]..record.len())
    };
    let two = [
        [(0, OTHER_TAG), (4, OTHER_TAG)],
        [(0, OTHER_TAG), (8, OTHER_TAG)],
        [(0, OTHER_TAG), (6, 1)],
        [(0, OTHER_TAG), (10, 1)],
        [(4, OTHER_TAG), (8, OTHER_TAG)],
        [(4, OTHER_TAG), (10, 1)],
    ];
    let after = [0, 1, 2].map(|field| [&with_tag(field, OTHER_TAG)[..], &[0]].concat());
    [
        &cut(0)[..],
        &cut(1),
        &two.map(|changes| with(&changes)),
        &after,
    ]
    .concat()
}

/// In the field of the wrong length, then in each later one.
fn tag_and_length() -> Vec<Vec<u8>> {
    let one = |(length, field): (usize, usize)| {
        wrong_lengths(length).map(|mut record| {
            let start = match field == length {
                true => STARTS[field],
                false => start_from_end(&record, field),
            };
            record[start] = OTHER_TAG;
            record
        })
    };
    let pairs = [(0, 0), (0, 1), (0, 2), (1, 1), (1, 2)];
    pairs.map(one).concat()
}

fn first_lengths() -> Vec<Vec<u8>> {
    let long = [0, 1].map(|field| with_content(field, vec![1; 257]));
    let both = sized_record(&[], &[], &bytes(&[4.0]));
    [&wrong_lengths(0)[..], &wrong_lengths(1), &long, &[both]].concat()
}

/// Also where field 03 is longer than it says, and beside wrong lengths.
fn something_after() -> Vec<Vec<u8>> {
    let record = small();
    let after: [&[u8]; 5] = [&[0x00], &[0xff], &[0x03, 0, 0], &[0x04, 1, 0, 0], &record];
    let extended = after.map(|more| [&record, more].concat());
    let shorter = [with(&[(9, 0)]), with(&[(9, 7)])];
    let beside = [0, 1].map(|field| wrong_lengths(field).map(|r| [&r[..], &[0]].concat()));
    [&extended[..], &shorter, &beside.concat()].concat()
}

/// If the whole length weren't checked first, these would be refused 11, 10 and 4.
fn too_long() -> Vec<Vec<u8>> {
    let entries = vec![0; LONGEST - 10];
    let record = sized_record(&[MAX_N], &[SE90], &entries);
    let mut tag = record.clone();
    tag[0] = OTHER_TAG;
    let mut cut = record.clone();
    cut[10] = 255;
    vec![tag, cut, record]
}
