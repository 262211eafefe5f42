//! Operands of the exported calls: mostly accepted, now and then refused.

use crate::generate::rng::Rng;
use crate::record::bytes;

pub fn size(rng: &mut Rng) -> usize {
    match rng.below(32) {
        0 => 0,
        1 => 49,
        2 => usize::MAX,
        3 => 48,
        4..=6 => 9 + rng.below(40),
        _ => 1 + rng.below(8),
    }
}

/// The bytes of n * n doubles, or some number where n is refused.
pub fn area(n: usize) -> usize {
    if n <= 49 {
        8 * n * n
    } else {
        32
    }
}

/// A number of bytes, mostly the one wanted.
pub fn length(wanted: usize, rng: &mut Rng) -> usize {
    match rng.below(8) {
        0 => other_length(wanted, rng),
        _ => wanted,
    }
}

/// A byte or a double more or less, or nothing.
pub fn other_length(wanted: usize, rng: &mut Rng) -> usize {
    match rng.below(5) {
        0 => wanted + 1,
        1 => wanted.saturating_sub(1),
        2 => wanted + 8,
        3 => wanted.saturating_sub(8),
        _ => 0,
    }
}

pub fn index(n: usize, rng: &mut Rng) -> usize {
    match rng.below(16) {
        0 => n,
        1 => usize::MAX,
        _ => rng.below(n.clamp(1, 48)),
    }
}

/// So many bytes of doubles: the last one may be cut.
pub fn cut(len: usize, doubles: impl FnOnce(usize) -> Vec<f64>) -> Vec<u8> {
    let mut list = bytes(&doubles(len.div_ceil(8)));
    list.truncate(len);
    list
}

/// To another length.
pub fn resize(list: &mut Vec<u8>, byte: u8, rng: &mut Rng) {
    list.resize(other_length(list.len(), rng), byte);
}

/// A double of a list, if it has one.
pub fn change_entry(list: &mut [u8], change: impl Fn(f64, &mut Rng) -> f64, rng: &mut Rng) {
    let at = rng.below((list.len() / 8).max(1));
    if let Some((entry, _)) = list[8 * at..].split_first_chunk_mut() {
        *entry = change(f64::from_le_bytes(*entry), rng).to_le_bytes();
    }
}

pub fn put_double(list: &mut [u8], at: usize, value: f64) {
    list[8 * at..8 * at + 8].copy_from_slice(&value.to_le_bytes());
}

/// The whole doubles.
pub fn doubles(bytes: &[u8]) -> Vec<f64> {
    let double = |chunk: &[u8]| f64::from_le_bytes(chunk.try_into().expect("chunks have 8 bytes"));
    bytes.chunks_exact(8).map(double).collect()
}

/// The whole numbers of four bytes.
pub fn words(bytes: &[u8]) -> Vec<u32> {
    let word = |chunk: &[u8]| u32::from_le_bytes(chunk.try_into().expect("chunks have 4 bytes"));
    bytes.chunks_exact(4).map(word).collect()
}

/// Of one sort or of all, and now and then with an infinity or NaN.
pub fn list(len: usize, rng: &mut Rng) -> Vec<f64> {
    let mut list = finite_list(len, rng);
    if rng.below(4) == 0 && len > 0 {
        for _ in 0..1 + rng.below(2) {
            list[rng.below(len)] = not_finite(rng);
        }
    }
    list
}

/// Of one sort or of all.
pub fn finite_list(len: usize, rng: &mut Rng) -> Vec<f64> {
    let sort = rng.below(SORTS + 2);
    (0..len).map(|_| finite(sort, rng)).collect()
}

/// Of any bits, also those of signalling NaNs.
pub fn any_bits(len: usize, rng: &mut Rng) -> Vec<f64> {
    let special = rng.coin();
    let mut entry = || match special && rng.coin() {
        true => not_finite(rng),
        false => f64::from_bits(rng.bits()),
    };
    (0..len).map(|_| entry()).collect()
}

/// What a buffer of so many bytes has before a call: NaNs.
pub fn filling(len: usize) -> Vec<u8> {
    let nan = |i: usize| f64::from_bits(0x7ff4 << 48 | i as u64);
    cut(len, |count| (0..count).map(nan).collect())
}

const SORTS: usize = 7;

/// A number that isn't a sort stands for all of them.
fn finite(sort: usize, rng: &mut Rng) -> f64 {
    let sign = rng.pick(&[1.0, -1.0]);
    match sort {
        0 => rng.zero(),
        1 => f64::from(rng.whole(-4, 4)),
        2 => rng.signed(1.0),
        3 => rng.either(1.0, 2.0) * 2f64.powi(rng.whole(-1022, 1023)),
        4 => sign * f64::from_bits(rng.bits() >> (12 + rng.below(52))),
        5 => rng.either(0.01, 1.0) * f64::MAX,
        6 => sign * (1.0 + f64::from(rng.whole(0, 3)) * f64::EPSILON),
        _ => finite(rng.below(SORTS), rng),
    }
}

/// The square of a number of up to 26 binary digits, at every scale down to 2^-1074: its root is exact.
pub fn square(rng: &mut Rng) -> f64 {
    let number = rng.bits() >> (38 + rng.below(26));
    let root = number as f64 * 2f64.powi(rng.whole(-537, 485));
    root * root
}

/// Infinities and NaNs, of either sign and any payload.
pub fn not_finite(rng: &mut Rng) -> f64 {
    let (sign, any) = (rng.bits() & 1 << 63, rng.bits() >> 12);
    f64::from_bits(sign | 0x7ff << 52 | rng.pick(&[0, 0, 1, 1 << 51, any]))
}
