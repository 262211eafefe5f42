//! Refusals 2 to 4: a record's method, n and length of field 03.

use super::{of_kind, Entry};
use crate::record::{bytes, matrix_record, sized_record, LONGEST, MAX_N};
use crate::{GMW81, SE90, SE99};

pub const ORDER: &str = "order of checks 10, 11, 1 to 4";

pub fn all() -> Vec<Entry> {
    [
        of_kind("2: method", methods()),
        of_kind("3: n", sizes()),
        of_kind("4: length", lengths()),
        of_kind(ORDER, order()),
    ]
    .concat()
}

/// Bytes of the entries of 48 rows.
const MOST: usize = 8 * (MAX_N as usize).pow(2);

/// Field 03 has `length` bytes, from the entries 1.0.
fn with_length(method: u8, n: u8, length: usize) -> Vec<u8> {
    let content = bytes(&vec![1.0; length.div_ceil(8)]);
    sized_record(&[n], &[method], &content[..length])
}

fn methods() -> Vec<Vec<u8>> {
    [0, 4, 17, 128, 255]
        .map(|method| matrix_record(method, 1, &[4.0]))
        .to_vec()
}

/// At n = 128, 8 * n * n is 0 in sixteen bits. Entries of 48 rows and the longest record come with n = 49.
fn sizes() -> Vec<Vec<u8>> {
    let given = [
        (0, 0),
        (0, 8),
        (49, 8),
        (49, MOST),
        (49, LONGEST - 11),
        (128, 0),
        (255, 8),
    ];
    given
        .map(|(n, length)| with_length(SE99, n, length))
        .to_vec()
}

/// At n = 16, n * n is 0 in eight bits.
fn lengths() -> Vec<Vec<u8>> {
    let given = [
        (GMW81, 1, 0),
        (SE90, 1, 7),
        (SE99, 1, 9),
        (GMW81, 1, 16),
        (GMW81, 2, 0),
        (SE90, 2, 24),
        (SE99, 2, 31),
        (GMW81, 2, 33),
        (SE90, 2, 40),
        (SE99, 3, 32),
        (GMW81, 16, 0),
        (SE90, 48, 0),
        (SE99, 48, 8 * 47 * 47),
        (GMW81, 48, MOST - 1),
        (SE90, 47, MOST),
    ];
    given
        .map(|(m, n, length)| with_length(m, n, length))
        .to_vec()
}

/// Each fails the check it is listed for and, if there are any, later ones.
fn order() -> Vec<Vec<u8>> {
    let nan = bytes(&[f64::NAN, 1.0, 2.0]);
    let after = |n: &[u8], method: &[u8]| [&sized_record(n, method, &nan)[..], &[0]].concat();
    let mut tag = after(&[], &[0]);
    tag[7] = 0x00;
    let cut = &tag[..tag.len() - 2];
    let first = [cut, &tag, &after(&[], &[0]), &after(&[0], &[0])].map(Vec::from);
    let others = [(0, 0), (49, 4), (0, GMW81), (49, SE90), (2, SE99)];
    let refused_2_to_4 = others.map(|(n, method)| sized_record(&[n], &[method], &nan));
    [&first[..], &refused_2_to_4].concat()
}
