//! A tie that only rounding makes, with no entry zero and no two diagonal entries equal.

use super::Entry;
use crate::generate::edge::border;
use crate::generate::rng::Rng;
use crate::generate::symmetric::Symmetric;
use crate::{answer, GMW81, SE99};

pub const KIND: &str = "tied by rounding, no zeros";

/// n and the tied step, for each method. Step 29 takes the thirtieth pivot.
pub const GIVEN: [(usize, usize); 3] = [(4, 1), (9, 5), (48, 29)];

pub fn all() -> Vec<Entry> {
    let each = |(n, step)| (GMW81..=SE99).map(move |method| (method, n, step));
    GIVEN
        .into_iter()
        .flat_map(each)
        .map(|(method, n, step)| Entry::of(KIND, method, tied(method, n, step).entries()))
        .collect()
}

fn tied(method: u8, n: usize, step: usize) -> Symmetric {
    (0..)
        .find_map(|seed| try_seed(method, n, step, &mut Rng::new(29, seed)))
        .expect("there is always another seed")
}

/// Moves the diagonal entry of one of the two rows to where the other is no longer the pivot. At one
/// of the two doubles left there may be a tie.
fn try_seed(method: u8, n: usize, step: usize, rng: &mut Rng) -> Option<Symmetric> {
    let order = rng.permutation(n);
    let made = falling(n, step, rng).reloaded(&order);
    let row = order.iter().position(|&i| i == step + 1)?;
    let rival = order.iter().position(|&i| i == step)?;
    let found = |entry: f64| answer(method, n, made.with(row, row, entry).entries(), None);
    let (low, high) = border(1.3, 1.9, |entry| found(entry).p[step] == rival);
    [low, high]
        .into_iter()
        .find(|&entry| found(entry).tied == Some(step))
        .map(|entry| made.with(row, row, entry))
}

/// Pivots in falling order before `step`, then two rows apart from the rest, which isn't positive
/// definite if there are many.
fn falling(n: usize, step: usize, rng: &mut Rng) -> Symmetric {
    Symmetric::new(n, |i, j| match i == j {
        true if i < step => 4.0 + 0.1 * (step - i) as f64 + rng.signed(0.01),
        true if i < step + 2 => rng.within(1.5, 1.7),
        true => rng.within(0.3, 0.6),
        false if j < step + 2 => rng.either(0.01, 0.05),
        false => rng.either(0.1, 0.4),
    })
}
