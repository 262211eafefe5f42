//! Records that are broken once or twice; some are sound all the same.

use oracle::generate::rng::Rng;
use oracle::generate::{matrix, KINDS};
use oracle::numbered::{numbers, Numbered};
use oracle::operands::not_finite;
use oracle::record::{bytes, field, matrix_record, number_bytes, LONGEST, NUMBERED_DUE};

/// Where field 03 has its content, in a record of sound fields without numbers.
const ENTRIES: usize = 11;

pub fn record(rng: &mut Rng) -> Vec<u8> {
    let mut bytes = sound(rng);
    for _ in 0..1 + rng.below(2) {
        break_once(&mut bytes, rng);
    }
    bytes
}

fn sound(rng: &mut Rng) -> Vec<u8> {
    let n = match rng.below(64) {
        0 => 48,
        _ => 1 + rng.below(6),
    };
    let method = 1 + rng.below(3) as u8;
    // The last kinds aim at a step, which a broken record has no use for.
    let kind = rng.pick(&KINDS[..12]);
    matrix_record(method, n as u8, &matrix(kind, method, n, 0, rng))
}

fn break_once(bytes: &mut Vec<u8>, rng: &mut Rng) {
    match rng.below(17) {
        0 => bytes.truncate(rng.below(bytes.len() + 1)),
        1 => bytes.extend((0..1 + rng.below(9)).map(|_| rng.bits() as u8)),
        2 => bytes.resize(LONGEST - 2 + rng.below(5), 0),
        3 => flip(bytes, rng),
        4 => put(bytes, rng.pick(&[0, 4, 8]), rng.below(5) as u8),
        5 => put(bytes, rng.pick(&[0, 4, 8]), rng.bits() as u8),
        6 => put(bytes, rng.pick(&[1, 2, 5, 6, 9, 10]), rng.bits() as u8),
        7 => put(bytes, rng.pick(&[1, 2, 5, 6, 9, 10]), rng.below(3) as u8),
        8 => put(bytes, 3, rng.pick(&[0, 1, 2, 48, 49, 255])),
        9 => {
            put(bytes, 7, rng.pick(&[0, 1, 2, 3, 4, 255]));
            put(bytes, 3, rng.pick(&[0, 1, 2, 49]));
        }
        10 | 11 => spoil(bytes, not_finite(rng), rng),
        12 | 13 => turn_bit(bytes, rng),
        14 => exchange_fields(bytes, rng),
        15 => other_first_length(bytes, rng),
        _ => other_length(bytes, rng),
    }
}

fn put(bytes: &mut [u8], at: usize, value: u8) {
    if let Some(byte) = bytes.get_mut(at) {
        *byte = value;
    }
}

fn flip(bytes: &mut [u8], rng: &mut Rng) {
    for _ in 0..1 + rng.below(4) {
        let at = rng.below(bytes.len().max(1));
        let old = bytes.get(at).copied().unwrap_or(0);
        put(bytes, at, old ^ 1 << rng.below(8));
    }
}

/// How many whole entries there are.
fn entries(bytes: &[u8]) -> usize {
    bytes.len().saturating_sub(ENTRIES) / 8
}

/// One entry, or one and its mirror, becomes `value`.
fn spoil(bytes: &mut [u8], value: f64, rng: &mut Rng) {
    let count = entries(bytes);
    if count == 0 {
        return;
    }
    let (n, at) = (count.isqrt(), rng.below(count));
    let mirror = at % n * n + at / n;
    for place in [at, if rng.coin() { mirror } else { at }] {
        let start = ENTRIES + 8 * place.min(count - 1);
        bytes[start..start + 8].copy_from_slice(&value.to_le_bytes());
    }
}

/// One bit of one entry: its sign, its last or any.
fn turn_bit(bytes: &mut [u8], rng: &mut Rng) {
    let count = entries(bytes);
    if count == 0 {
        return;
    }
    let any = rng.below(64);
    let bit = rng.pick(&[0, 63, any]);
    let at = ENTRIES + 8 * rng.below(count) + bit / 8;
    put(bytes, at, bytes[at] ^ 1 << (bit % 8));
}

/// The first two fields in the other order, or one of them twice.
fn exchange_fields(bytes: &mut Vec<u8>, rng: &mut Rng) {
    if bytes.len() < 8 {
        return;
    }
    match rng.below(3) {
        0 => bytes[..8].rotate_left(4),
        1 => bytes.copy_within(..4, 4),
        _ => {
            let first = bytes[..4].to_vec();
            bytes.splice(4..4, first);
        }
    }
}

/// Field 01 or 02 says truly that it is longer, or empty.
fn other_first_length(bytes: &mut Vec<u8>, rng: &mut Rng) {
    let start = rng.pick(&[0, 4]);
    if bytes.len() < start + 4 {
        return;
    }
    let length = rng.pick(&[0, 2, 3, 255]);
    bytes[start + 1] = length;
    let content = vec![1; length.into()];
    bytes.splice(start + 3..start + 4, content);
}

/// Field 03 says truly that it is longer or shorter.
fn other_length(bytes: &mut Vec<u8>, rng: &mut Rng) {
    let content = bytes.len().saturating_sub(ENTRIES);
    let length = match rng.below(4) {
        0 => content + 8,
        1 => content.saturating_sub(8),
        2 => content + 1 + rng.below(7),
        _ => 0,
    };
    bytes.resize(ENTRIES + length, 0);
    let [low, high] = (length as u16).to_le_bytes();
    put(bytes, 9, low);
    put(bytes, 10, high);
}

/// The fields of a numbered record, by tag.
type Fields = Vec<(u8, Vec<u8>)>;

/// The same of records with numbers: one or two faults in the fields, now and then one in the bytes.
pub fn numbered(rng: &mut Rng) -> Vec<u8> {
    let mut fields = sound_fields(rng);
    for _ in 0..1 + rng.below(2) {
        break_field(&mut fields, rng);
    }
    let parts = fields
        .iter()
        .flat_map(|(tag, content)| field(*tag, content));
    let mut bytes: Vec<u8> = parts.collect();
    if rng.below(3) == 0 {
        break_bytes(&mut bytes, rng);
    }
    bytes
}

fn sound_fields(rng: &mut Rng) -> Fields {
    let n = if rng.below(64) == 0 {
        48
    } else {
        1 + rng.below(6)
    };
    let method = 1 + rng.below(3) as u8;
    let kind = rng.pick(&KINDS[..12]);
    let made = Numbered {
        method,
        n,
        matrix: matrix(kind, method, n, 0, rng),
        numbers: numbers(n, rng),
    };
    let contents = [
        vec![n as u8],
        vec![method],
        number_bytes(&made.numbers),
        bytes(&made.matrix),
    ];
    NUMBERED_DUE.into_iter().zip(contents).collect()
}

fn break_field(fields: &mut Fields, rng: &mut Rng) {
    let at = rng.below(fields.len().max(1));
    let Some((tag, content)) = fields.get_mut(at) else {
        return;
    };
    match (rng.below(16), *tag) {
        (0, _) => *tag = rng.below(6) as u8,
        (1, _) => *tag = rng.bits() as u8,
        (2, _) => content.push(1),
        (3, _) => content.truncate(content.len().saturating_sub(1)),
        (4, _) => fields.swap(at, 0),
        (5, _) => {
            let again = fields[at].clone();
            fields.insert(at, again);
        }
        (6, _) => {
            fields.remove(at);
        }
        (_, 0x01) => *content = vec![rng.pick(&[0, 1, 2, 48, 49, 255])],
        (_, 0x02) => *content = vec![rng.pick(&[0, 1, 2, 3, 4, 255])],
        (7 | 8, 0x04) => other_numbers_length(content, rng),
        (_, 0x04) => repeat_number(content, rng),
        (_, _) => spoil_entry(content, rng),
    }
}

fn other_numbers_length(content: &mut Vec<u8>, rng: &mut Rng) {
    let len = content.len();
    let lengths = [0, len.saturating_sub(4), len + 4, 2 * len, len + 2];
    content.resize(rng.pick(&lengths), 3);
}

fn repeat_number(content: &mut [u8], rng: &mut Rng) {
    let count = content.len() / 4;
    if count > 1 {
        let (from, to) = (4 * rng.below(count), 4 * rng.below(count));
        content.copy_within(from..from + 4, to);
    }
}

/// Not finite, or of the other sign, or of another number of entries.
fn spoil_entry(content: &mut Vec<u8>, rng: &mut Rng) {
    let at = 8 * rng.below((content.len() / 8).max(1));
    match rng.below(3) {
        0 => content.truncate(at),
        1 => put(content, at + 7, 0x80),
        _ => {
            for (k, byte) in not_finite(rng).to_le_bytes().into_iter().enumerate() {
                put(content, at + k, byte);
            }
        }
    }
}

fn break_bytes(bytes: &mut Vec<u8>, rng: &mut Rng) {
    match rng.below(4) {
        0 => bytes.truncate(rng.below(bytes.len() + 1)),
        1 => bytes.extend((0..1 + rng.below(9)).map(|_| rng.bits() as u8)),
        2 => bytes.resize(LONGEST - 2 + rng.below(5), 0),
        _ => flip(bytes, rng),
    }
}

#[cfg(test)]
mod tests {
    use super::*;
    use oracle::record::{checked, Refusal, PAST_END, TAG_NOT_DUE};
    use std::collections::BTreeMap;

    /// The number, with the field where it has one.
    fn kind(refusal: Refusal) -> (u8, Option<u8>) {
        let has_field = [PAST_END, TAG_NOT_DUE].contains(&refusal.number);
        (refusal.number, has_field.then_some(refusal.place[0]))
    }

    /// Whether of 4000 records so many are refused by each number, and at each field.
    fn often(least: usize, record: fn(&mut Rng) -> Vec<u8>, numbers: &[u8], fields: &[u8]) {
        let mut rng = Rng::new(1, 0);
        let mut seen: BTreeMap<(u8, Option<u8>), usize> = BTreeMap::new();
        for _ in 0..4000 {
            let refusal = checked(&record(&mut rng)).err();
            *seen.entry(refusal.map_or((0, None), kind)).or_default() += 1;
        }
        let whole = numbers.iter().map(|&number| (number, None));
        let at = |r: u8| fields.iter().map(move |&field| (r, Some(field)));
        let mut all = whole.chain(at(PAST_END)).chain(at(TAG_NOT_DUE));
        assert!(all.all(|kind| seen.get(&kind) >= Some(&least)), "{seen:?}");
    }

    #[test]
    fn every_check_of_a_record_fails_often() {
        often(100, record, &[0, 1, 2, 3, 4, 7, 8], &[0, 1, 2]);
    }

    #[test]
    fn every_check_of_a_numbered_record_fails_often() {
        let numbers = [0, 1, 2, 3, 4, 7, 8, 12, 13];
        often(25, super::numbered, &numbers, &[0, 1, 2, 3]);
    }
}
