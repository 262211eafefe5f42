//! Matrices whose SE90 meets a pivot at or below zero, at every step of one to four rows, with every method; by SE90
//! also with contract numbers.

use super::Entry;
use crate::record::numbered_record;
use crate::roots::diagonal;
use crate::{GMW81, SE90, SE99};

pub const KIND: &str = "pivot at or below zero";
pub const NUMBERED: &str = "numbered: pivot at or below zero";

pub fn all() -> Vec<Entry> {
    let plain = matrices().into_iter();
    let plain = plain.flat_map(|a| (GMW81..=SE99).map(move |m| Entry::of(KIND, m, &a)));
    plain.chain(numbered()).collect()
}

fn matrices() -> Vec<Vec<f64>> {
    let least = f64::from_bits(1);
    let single = [0.0, -0.0, -4.0, -least, -f64::MAX].map(|x| vec![x]);
    let mut all = Vec::from(single);
    all.extend([
        vec![0.0; 4],
        vec![-1.0, 2.0, 2.0, -1.0],
        diagonal(&[-1.0; 3]),
        diagonal(&[-1.0, -3.0, -0.0, -2.0]),
    ]);
    all.extend((2..=4).flat_map(|n| (1..n).flat_map(move |step| left(n, step))));
    all
}

/// At this step, which isn't the first. Where tau times gamma underflows: zeros. Where squares do: zeros, equal
/// negative numbers, and different ones.
fn left(n: usize, step: usize) -> [Vec<f64>; 4] {
    [
        zeros(n, step),
        after_a_column(n, step, |_| 1.0),
        after_a_column(n, step, |_| 0.5),
        after_a_column(n, step, |i| 1.0 / (i + 2) as f64),
    ]
}

/// Multiples of the least number, then zeros of either sign.
fn zeros(n: usize, step: usize) -> Vec<f64> {
    let value = |i: usize| match i {
        _ if i < step => f64::from_bits((n - i) as u64),
        _ if i % 2 == 0 => 0.0,
        _ => -0.0,
    };
    diagonal(&(0..n).map(value).collect::<Vec<_>>())
}

/// The pivot before `step` is 4 and its column 2, so it takes 1 off the diagonal entries `rest`, all times 2^-650.
fn after_a_column(n: usize, step: usize, rest: impl Fn(usize) -> f64) -> Vec<f64> {
    let entry = |i: usize, j: usize| match i == j {
        true if i < step => (3 + step - i) as f64,
        true => rest(i),
        false if i.min(j) + 1 == step => 2.0,
        false => 0.0,
    };
    let places = (0..n).flat_map(|i| (0..n).map(move |j| (i, j)));
    places.map(|(i, j)| entry(i, j) * 2f64.powi(-650)).collect()
}

/// Of as many as there are rows.
const NUMBERS: [u32; 4] = [7, 9, 2, 4];

/// Those of several rows, by SE90.
fn numbered() -> impl Iterator<Item = Entry> {
    let several = matrices().into_iter().filter(|a| a.len() > 1);
    several.map(|a| {
        let n = a.len().isqrt();
        Entry::new(NUMBERED, numbered_record(SE90, n as u8, &NUMBERS[..n], &a))
    })
}
