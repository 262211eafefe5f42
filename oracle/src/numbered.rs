//! Matrices with contract numbers, most of them with ties to settle.

use crate::generate::rng::Rng;
use crate::generate::symmetric::Symmetric;
use crate::generate::{self, Case, Kind};
use crate::record::numbered_record;
use crate::{GMW81, SE99};

#[derive(Clone, Copy, Debug, PartialEq)]
pub enum Sort {
    /// Of the generator's kinds.
    Of(Kind),
    /// Contracts of a group are alike, so that they tie in both phases.
    Groups,
    /// The rows differ, and the low ends of their circles are equal: phase two, tied from its start.
    Levelled,
}

/// Those that tie: by equal entries, by rounding, by zeros of either sign, in phase two, and where SE90's pivot is at
/// or below zero.
pub const TYING: [Sort; 8] = [
    Sort::Of(Kind::EqualDiagonals),
    Sort::Of(Kind::TiedByRounding),
    Sort::Of(Kind::ZeroDiagonals),
    Sort::Of(Kind::SignedZeros),
    Sort::Of(Kind::SmallIntegers),
    Sort::Groups,
    Sort::Levelled,
    Sort::Of(Kind::PivotNotPositive),
];

/// How many the list has, said once more: a comparison of fewer is a difference.
pub const COUNT: usize = 1728;

/// Every sort with every method and n, the small ones four times. The same at every call.
pub fn list() -> Vec<(Sort, Numbered)> {
    let sizes = (1..=48).flat_map(|n| (0..if n <= 8 { 4 } else { 1 }).map(move |turn| (n, turn)));
    let methods = sizes.flat_map(|at| (GMW81..=SE99).map(move |method| (at, method)));
    let all = methods.flat_map(|at| (0..TYING.len()).map(move |index| (at, index)));
    let one = |(((n, turn), method), index): (((usize, u64), u8), usize)| {
        let seed = 10_000 * turn + 100 * u64::from(method) + index as u64;
        let made = Numbered::new(TYING[index], method, n, &mut Rng::new(n as u64, seed));
        (TYING[index], made)
    };
    all.map(one).collect()
}

/// A matrix and its contracts' numbers.
#[derive(Clone, Debug)]
pub struct Numbered {
    pub method: u8,
    pub n: usize,
    pub matrix: Vec<f64>,
    pub numbers: Vec<u32>,
}

impl Numbered {
    pub fn new(sort: Sort, method: u8, n: usize, rng: &mut Rng) -> Self {
        let step = rng.below(n);
        let matrix = match sort {
            Sort::Of(kind) => generate::matrix(kind, method, n, step, rng),
            Sort::Groups => groups(n, rng).into_entries(),
            Sort::Levelled => levelled(n, rng).into_entries(),
        };
        Numbered {
            method,
            n,
            matrix,
            numbers: numbers(n, rng),
        }
    }

    /// The same matrix as a case of the generator.
    pub fn of_case(case: &Case, rng: &mut Rng) -> Self {
        Numbered {
            method: case.method,
            n: case.n,
            matrix: case.matrix.clone(),
            numbers: numbers(case.n, rng),
        }
    }

    pub fn record(&self) -> Vec<u8> {
        numbered_record(self.method, self.n as u8, &self.numbers, &self.matrix)
    }

    /// Row i of the result is row s[i], and its number comes with it.
    pub fn reloaded(&self, s: &[usize]) -> Self {
        let row = |i: usize| s.iter().map(move |&j| self.matrix[i * self.n + j]);
        Numbered {
            matrix: s.iter().flat_map(|&i| row(i)).collect(),
            numbers: s.iter().map(|&i| self.numbers[i]).collect(),
            ..*self
        }
    }
}

/// n different numbers: small ones, any, the largest, or such that only a high byte differs.
pub fn numbers(n: usize, rng: &mut Rng) -> Vec<u32> {
    let order: Vec<u32> = rng.permutation(n).into_iter().map(|x| x as u32).collect();
    match rng.below(4) {
        0 => order,
        1 => any_numbers(n, rng),
        2 => order.iter().map(|x| u32::MAX - x).collect(),
        _ => {
            let (low, shift) = (rng.bits() as u32 % 256, rng.pick(&[8, 16, 24]));
            order.iter().map(|x| x << shift | low).collect()
        }
    }
}

fn any_numbers(n: usize, rng: &mut Rng) -> Vec<u32> {
    let mut out: Vec<u32> = Vec::new();
    while out.len() < n {
        let number = rng.bits() as u32;
        if !out.contains(&number) {
            out.push(number);
        }
    }
    out
}

const GROUPS: usize = 3;

/// Of few values, whose sums are exact.
fn groups(n: usize, rng: &mut Rng) -> Symmetric {
    let count = 1 + rng.below(GROUPS);
    let group: Vec<usize> = (0..n).map(|_| rng.below(count)).collect();
    let own: Vec<f64> = (0..count)
        .map(|_| rng.pick(&[8.0, 4.0, 1.0, 0.0, -0.0, -1.0, -2.0]))
        .collect();
    let mutual: Vec<f64> = (0..GROUPS * GROUPS)
        .map(|_| rng.pick(&[1.0, -1.0, 0.5, 0.25, -0.5, 0.0, -0.0]))
        .collect();
    Symmetric::new(n, |i, j| match i == j {
        true => own[group[i]],
        false => {
            let (x, y) = (group[i].min(group[j]), group[i].max(group[j]));
            mutual[x * GROUPS + y]
        }
    })
}

/// Whole numbers: each diagonal entry is its row's sum of magnitudes less the largest such sum, now and
/// then by one or two less.
fn levelled(n: usize, rng: &mut Rng) -> Symmetric {
    let mut out = Symmetric::new(n, |i, j| match i == j {
        true => 0.0,
        false => f64::from(rng.whole(-2, 2)),
    });
    let sums: Vec<f64> = (0..n)
        .map(|i| (0..n).map(|j| out.get(i, j).abs()).sum())
        .collect();
    let most = sums.iter().fold(1.0, |acc: f64, &x| acc.max(x));
    let lower = rng.coin();
    for (i, sum) in sums.iter().enumerate() {
        let less = if lower { rng.whole(0, 2) } else { 0 };
        out.set(i, i, sum - most - f64::from(less));
    }
    out
}

#[cfg(test)]
mod tests {
    use super::*;
    use crate::second::{judged, Ties};
    use crate::{is_accepted, SE90};

    #[test]
    fn ties_are_settled_by_number_in_every_method_and_phase() {
        let list = list();
        let ties = list.iter().map(|(_, made)| {
            assert!(is_accepted(made.n, &made.matrix));
            judged(made.method, made.n, &made.matrix, Some(&made.numbers)).ties
        });
        let ties: Vec<Ties> = ties.collect();
        let moved = |method: u8, n: usize, count: fn(&Ties) -> usize| {
            let mut own = list.iter().zip(&ties);
            own.any(|((_, made), t)| (made.method, made.n) == (method, n) && count(t) > 0)
        };
        for n in 2..=48 {
            assert!((GMW81..=SE99).all(|m| moved(m, n, |t| t.moved)), "{n}");
            let phase_two = |m: &u8| moved(*m, n, |t| t.moved_unreported);
            assert!(n == 2 || [SE90, SE99].iter().all(phase_two), "{n}");
        }
        assert_eq!(list.len(), COUNT);
    }

    /// At the first step, between and, where there are several rows, at the last; tied at that step or not.
    #[test]
    fn pivots_at_or_below_zero_are_met_tied_and_not() {
        let list = list();
        let runs = list.iter().filter(|(_, made)| made.method == SE90);
        let met = runs.filter_map(|(_, made)| {
            let found = judged(SE90, made.n, &made.matrix, Some(&made.numbers));
            let step = found.not_positive?;
            let place = match step {
                0 => 0,
                _ if step + 1 < made.n => 1,
                _ => 2,
            };
            Some((place, found.answer.tied == Some(step)))
        });
        let count = |sort| met.clone().filter(|x| *x == sort).count();
        let often = [(0, false), (0, true), (1, false), (1, true)].map(count);
        assert!(often.iter().all(|&count| count > 10), "{often:?}");
        let last = count((2, false));
        assert!(last > 5, "{last}");
    }

    #[test]
    fn numbers_differ() {
        let mut rng = Rng::new(1, 1);
        for n in (1..=48).cycle().take(500) {
            let mut list = numbers(n, &mut rng);
            list.sort();
            list.dedup();
            assert_eq!(list.len(), n);
        }
    }

    #[test]
    fn a_number_moves_with_its_contract() {
        let first = Numbered {
            method: GMW81,
            n: 3,
            matrix: vec![1.0, 2.0, 3.0, 2.0, 4.0, 5.0, 3.0, 5.0, 6.0],
            numbers: vec![7, 8, 9],
        };
        let second = first.reloaded(&[1, 2, 0]);
        assert_eq!(second.matrix, [4.0, 5.0, 2.0, 5.0, 6.0, 3.0, 2.0, 3.0, 1.0]);
        assert_eq!(second.numbers, [8, 9, 7]);
    }
}
