//! Systems to solve: sound ones, and with faults of every kind at every place.

use crate::generate::rng::Rng;
use crate::operands::{self, change_entry, index, not_finite, other_length, put_double, resize};
use crate::record::bytes;
use crate::second::solve::System;

/// How many the list has, said once more: a comparison of fewer is a difference.
pub const COUNT: usize = 76_551;

/// With a y of NaNs lent.
pub fn system(n: usize, l: &[f64], p: &[usize], b: &[f64]) -> System {
    System {
        n,
        l: bytes(l),
        p: p.to_vec(),
        b: bytes(b),
        y: operands::filling(8 * n),
    }
}

/// Tame entries, or finite ones of any sort; what isn't finite stands above the diagonal alone.
pub fn drawn(n: usize, rng: &mut Rng) -> System {
    if rng.coin() {
        return tame(n, rng);
    }
    let mut l = operands::finite_list(n * n, rng);
    if rng.coin() {
        upper(n).for_each(|at| l[at] = not_finite(rng));
    }
    system(n, &l, &rng.permutation(n), &operands::finite_list(n, rng))
}

/// The places above the diagonal.
fn upper(n: usize) -> impl Iterator<Item = usize> {
    (0..n).flat_map(move |i| (i + 1..n).map(move |j| i * n + j))
}

/// Magnitudes up to 2, on the diagonal from a half on, of either sign; NaNs and infinities above it.
fn tame(n: usize, rng: &mut Rng) -> System {
    let mut l: Vec<f64> = (0..n * n).map(|_| rng.signed(1.0)).collect();
    (0..n).for_each(|i| l[i * n + i] = rng.either(0.5, 2.0));
    upper(n).for_each(|at| l[at] = not_finite(rng));
    let b: Vec<f64> = (0..n).map(|_| rng.either(1.0, 2.0)).collect();
    system(n, &l, &rng.permutation(n), &b)
}

/// With one or two operands changed; it may be sound all the same.
pub fn changed(mut system: System, rng: &mut Rng) -> System {
    for _ in 0..1 + rng.below(2) {
        change(&mut system, rng);
    }
    system
}

fn change(system: &mut System, rng: &mut Rng) {
    let n = system.n;
    match rng.below(9) {
        0 => system.n = rng.pick(&[0, 49, usize::MAX, n.saturating_sub(1), n.saturating_add(1)]),
        1 => resize(&mut system.l, 0, rng),
        2 => resize(&mut system.y, 5, rng),
        3 => system.p.resize(other_length(system.p.len(), rng), 0),
        4 => resize(&mut system.b, 0, rng),
        5 => {
            let at = rng.below(system.p.len().max(1));
            if let Some(row) = system.p.get_mut(at) {
                *row = index(n, rng);
            }
        }
        6 => change_entry(&mut system.l, |_, rng| not_finite(rng), rng),
        7 => change_entry(&mut system.b, |_, rng| not_finite(rng), rng),
        _ => change_entry(&mut system.l, |_, rng| rng.zero(), rng),
    }
}

/// The rest of the list: sizes that are refused, and every set of nine faults at once.
pub fn refused_together() -> Vec<System> {
    let one = tame(1, &mut Rng::new(0, 0));
    // 2^32 rows have 0 entries in a word.
    let sizes = [0, 49, 50, 257, 1 << 32, 1 << 61, usize::MAX];
    let sized = sizes.map(|n| System { n, ..one.clone() });
    let three = tame(3, &mut Rng::new(0, 1));
    let sets = (0..1 << FAULTS.len()).map(|set: usize| {
        let mut system = three.clone();
        let chosen = FAULTS.iter().enumerate();
        let chosen = chosen.filter(|(bit, _)| set >> bit & 1 == 1);
        chosen.for_each(|(_, fault)| fault(&mut system));
        system
    });
    sized.into_iter().chain(sets).collect()
}

/// Of three rows; the one that makes a list shorter comes after those in it.
const FAULTS: [fn(&mut System); 9] = [
    |s| s.n = 49,
    |s| s.p[2] = s.p[0],
    |s| put_double(&mut s.l, 7, f64::NAN),
    |s| put_double(&mut s.l, 4, -0.0),
    |s| put_double(&mut s.b, 1, f64::INFINITY),
    |s| s.l.truncate(64),
    |s| s.y.truncate(16),
    |s| s.p.push(1),
    |s| s.b.truncate(16),
];

/// One of each kind at each place.
pub fn of_size(n: usize) -> Vec<System> {
    let sound = tame(n, &mut Rng::new(n as u64, 0));
    [
        lengths(&sound),
        orders(&sound),
        entries(&sound),
        right_sides(&sound),
        overflows(&sound),
        vec![sound],
    ]
    .concat()
}

fn with(sound: &System, edit: impl FnOnce(&mut System)) -> System {
    let mut other = sound.clone();
    edit(&mut other);
    other
}

/// A byte and a double more and less, and nothing.
fn lengths(sound: &System) -> Vec<System> {
    let lists: [fn(&mut System) -> &mut Vec<u8>; 3] = [|s| &mut s.l, |s| &mut s.y, |s| &mut s.b];
    let mut out = Vec::new();
    for list in lists {
        let len = list(&mut sound.clone()).len();
        let others = [0, len - 8, len - 1, len + 1, len + 8];
        out.extend(others.map(|other| with(sound, |s| list(s).resize(other, 0))));
    }
    let others = [0, sound.n - 1, sound.n + 1];
    out.extend(others.map(|other| with(sound, |s| s.p.resize(other, 0))));
    out
}

/// At each position of p an index out of range, and one that came before.
fn orders(sound: &System) -> Vec<System> {
    let n = sound.n;
    let at = |k: usize, row: usize| with(sound, |s| s.p[k] = row);
    let above = (0..n).flat_map(|k| [n, 255, 256, usize::MAX].map(|row| at(k, row)));
    let again = (1..n).flat_map(|k| [0, k / 2, k - 1].map(|i| at(k, sound.p[i])));
    above.chain(again).collect()
}

const NOT_FINITE: [f64; 3] = [f64::NAN, f64::INFINITY, f64::NEG_INFINITY];

/// At each place of the lower part an entry that isn't finite, on the diagonal also zeros.
fn entries(sound: &System) -> Vec<System> {
    let n = sound.n;
    let lower = (0..n).flat_map(|i| (0..=i).map(move |j| i * n + j));
    let at = |place: usize, value: f64| with(sound, |s| put_double(&mut s.l, place, value));
    let spoilt = lower.flat_map(|place| NOT_FINITE.map(|value| at(place, value)));
    let zeros = (0..n).flat_map(|i| [0.0, -0.0].map(|zero| at(i * n + i, zero)));
    spoilt.chain(zeros).collect()
}

fn right_sides(sound: &System) -> Vec<System> {
    let at = |k: usize, value: f64| with(sound, |s| put_double(&mut s.b, k, value));
    let all = (0..sound.n).flat_map(|k| NOT_FINITE.map(|value| at(k, value)));
    all.collect()
}

/// At each row a value that overflows forward, and one that overflows backward alone.
fn overflows(sound: &System) -> Vec<System> {
    let one = |t: usize, divisor: f64, right: f64| {
        with(sound, |s| {
            put_double(&mut s.l, t * s.n + t, divisor);
            put_double(&mut s.b, s.p[t], right);
        })
    };
    let both = |t: usize| {
        [
            one(t, 2f64.powi(-600), 2f64.powi(600)),
            one(t, -2f64.powi(-600), 1.0),
        ]
    };
    (0..sound.n).flat_map(both).collect()
}

#[cfg(test)]
mod tests {
    use super::*;
    use crate::second::solve::solve;

    #[test]
    fn there_are_as_many_as_said() {
        let sized: usize = (1..=48).map(|n| of_size(n).len()).sum();
        assert_eq!(sized + refused_together().len(), COUNT);
    }

    #[test]
    fn values_overflow_at_the_row_meant() {
        for n in [1, 2, 7, 48] {
            let sound = tame(n, &mut Rng::new(n as u64, 0));
            assert_eq!(solve(&sound).refusal, [0, 0, 0]);
            for (index, system) in overflows(&sound).iter().enumerate() {
                let solved = solve(system);
                assert_eq!(solved.refusal, [9, index / 2, 0]);
                assert_eq!(solved.backward, index % 2 == 1);
            }
        }
    }
}
