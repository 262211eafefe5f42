//! The checks of a matrix record, in documents 01's and 02's order: 1 (too long), 10 and 11 field by
//! field, 1 (lengths, bytes after), 2, 3, 4, 12 and 13 (where it has numbers), 7, 8. 5 and 6 are about
//! buffers and indexes, which it has none of.

use super::{LONGEST, MAX_N};
use crate::{GMW81, SE99};

pub const MALFORMED: u8 = 1;
pub const PAST_END: u8 = 10;
pub const TAG_NOT_DUE: u8 = 11;
pub const NUMBERS_LENGTH: u8 = 12;
pub const NUMBER_REPEATED: u8 = 13;

/// The tags of a record without numbers, in order: n, method, entries.
pub const DUE: [u8; 3] = [0x01, 0x02, 0x03];
/// The tags of a record with numbers, which stand before the entries.
pub const NUMBERED_DUE: [u8; 4] = [0x01, 0x02, 0x04, 0x03];

/// A record that passes every check.
#[derive(Clone, Debug, PartialEq)]
pub struct Input {
    pub method: u8,
    pub n: u8,
    pub matrix: Vec<f64>,
    /// A contract's number for each row.
    pub numbers: Option<Vec<u32>>,
}

#[derive(Clone, Copy, Debug, PartialEq)]
pub struct Refusal {
    pub number: u8,
    pub place: [u8; 2],
}

fn nowhere(number: u8) -> Refusal {
    Refusal {
        number,
        place: [0, 0],
    }
}

/// The first check that fails.
pub fn checked(record: &[u8]) -> Result<Input, Refusal> {
    let fields = fields(record)?;
    let (n, method) = (fields.n, fields.method);
    if !(GMW81..=SE99).contains(&method) {
        return Err(nowhere(2));
    }
    if !(1..=MAX_N).contains(&n) {
        return Err(nowhere(3));
    }
    if fields.entries.len() != 8 * usize::from(n).pow(2) {
        return Err(nowhere(4));
    }
    let numbers = fields.numbers.map(|content| numbers(n, content));
    let numbers = numbers.transpose()?;
    let matrix = doubles(fields.entries);
    every_entry_is_finite(n, &matrix)?;
    every_pair_is_equal(n, &matrix)?;
    Ok(Input {
        method,
        n,
        matrix,
        numbers,
    })
}

/// Checks 12 and 13: the numbers in the content of field 04.
fn numbers(n: u8, content: &[u8]) -> Result<Vec<u32>, Refusal> {
    if content.len() != 4 * usize::from(n) {
        return Err(nowhere(NUMBERS_LENGTH));
    }
    let numbers = words(content);
    match first_repeated(&numbers) {
        None => Ok(numbers),
        Some(later) => Err(Refusal {
            number: NUMBER_REPEATED,
            place: [later as u8, 0],
        }),
    }
}

/// The first position whose number came before.
fn first_repeated(numbers: &[u32]) -> Option<usize> {
    (0..numbers.len()).find(|&later| numbers[..later].contains(&numbers[later]))
}

fn words(content: &[u8]) -> Vec<u32> {
    content
        .chunks_exact(4)
        .map(|chunk| u32::from_le_bytes(chunk.try_into().expect("chunks have 4 bytes")))
        .collect()
}

/// The fields of a record that passes checks 1, 10 and 11; 03 and 04 may have any length.
pub struct Fields<'a> {
    pub n: u8,
    pub method: u8,
    pub numbers: Option<&'a [u8]>,
    pub entries: &'a [u8],
}

pub fn fields(record: &[u8]) -> Result<Fields<'_>, Refusal> {
    if record.len() > LONGEST {
        return Err(nowhere(MALFORMED));
    }
    let (contents, []) = walk(record)? else {
        return Err(nowhere(MALFORMED));
    };
    let (&[n], &[method]) = (contents.n, contents.method) else {
        return Err(nowhere(MALFORMED));
    };
    Ok(Fields {
        n,
        method,
        numbers: contents.numbers,
        entries: contents.entries,
    })
}

/// By their tags, each of any length.
#[derive(Default)]
struct Contents<'a> {
    n: &'a [u8],
    method: &'a [u8],
    numbers: Option<&'a [u8]>,
    entries: &'a [u8],
}

impl<'a> Contents<'a> {
    fn put(&mut self, tag: u8, content: &'a [u8]) {
        match tag {
            0x01 => self.n = content,
            0x02 => self.method = content,
            0x04 => self.numbers = Some(content),
            _ => self.entries = content,
        }
    }
}

/// The tags due at the start.
const FIRST: &[u8] = &[0x01];

/// The tags due after a field that was due itself; none after the last.
fn due_after(tag: u8) -> &'static [u8] {
    match tag {
        0x01 => &[0x02],
        0x02 => &[0x03, 0x04],
        0x04 => &[0x03],
        _ => &[],
    }
}

/// The content of each field that stands, and what follows the last. The first offending field decides.
fn walk(record: &[u8]) -> Result<(Contents<'_>, &[u8]), Refusal> {
    let mut contents = Contents::default();
    let (mut rest, mut due, mut index) = (record, FIRST, 0);
    while !due.is_empty() {
        let (tag, content, after) = first_field(rest).ok_or(at_field(PAST_END, index))?;
        if !due.contains(&tag) {
            return Err(at_field(TAG_NOT_DUE, index));
        }
        contents.put(tag, content);
        (rest, due, index) = (after, due_after(tag), index + 1);
    }
    Ok((contents, rest))
}

fn at_field(number: u8, index: usize) -> Refusal {
    Refusal {
        number,
        place: [index as u8, 0],
    }
}

/// Tag and content of the field that `bytes` begins with, and what follows it. Nothing if its header or
/// its content runs past the end.
fn first_field(bytes: &[u8]) -> Option<(u8, &[u8], &[u8])> {
    let (header, rest) = bytes.split_at_checked(3)?;
    let length = u16::from_le_bytes([header[1], header[2]]);
    let (content, after) = rest.split_at_checked(length.into())?;
    Some((header[0], content, after))
}

/// The whole doubles, eight bytes each, the low byte first.
pub fn doubles(content: &[u8]) -> Vec<f64> {
    content
        .chunks_exact(8)
        .map(|chunk| f64::from_le_bytes(chunk.try_into().expect("chunks have 8 bytes")))
        .collect()
}

fn every_entry_is_finite(n: u8, matrix: &[f64]) -> Result<(), Refusal> {
    let width = usize::from(n);
    match matrix.iter().position(|x| !x.is_finite()) {
        None => Ok(()),
        Some(at) => Err(Refusal {
            number: 7,
            place: [(at / width) as u8, (at % width) as u8],
        }),
    }
}

fn every_pair_is_equal(n: u8, matrix: &[f64]) -> Result<(), Refusal> {
    let bits = |i: u8, j: u8| matrix[usize::from(i) * usize::from(n) + usize::from(j)].to_bits();
    let mut pairs = (0..n).flat_map(|i| (i + 1..n).map(move |j| (i, j)));
    match pairs.find(|&(i, j)| bits(i, j) != bits(j, i)) {
        None => Ok(()),
        Some((i, j)) => Err(Refusal {
            number: 8,
            place: [i, j],
        }),
    }
}
