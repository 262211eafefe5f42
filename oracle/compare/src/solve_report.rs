//! What a comparison met of systems to solve.

use oracle::second::solve::{Refusal, Solved};
use oracle::systems::COUNT;
use std::collections::BTreeMap;
use std::fmt;

/// n, the refusal, and whether it came backward.
type Ended = (usize, Refusal, bool);

#[derive(Default)]
pub struct SolveReport {
    ended: BTreeMap<Ended, u64>,
    factored: u64,
    listed: usize,
    pairs: BTreeMap<usize, u64>,
}

impl SolveReport {
    pub fn run(&mut self, n: usize, solved: &Solved) {
        let ended = (n, solved.refusal, solved.backward);
        *self.ended.entry(ended).or_default() += 1;
    }

    /// One had the port's own factor.
    pub fn factored(&mut self) {
        self.factored += 1;
    }

    /// One of the fixed list was compared.
    pub fn listed(&mut self) {
        self.listed += 1;
    }

    /// Two loadings were solved, by both calls.
    pub fn pair(&mut self, refusal: usize) {
        *self.pairs.entry(refusal).or_default() += 1;
    }

    /// What should have occurred and didn't.
    pub fn missing(&self) -> Option<String> {
        if self.listed != COUNT {
            return Some(format!("{} systems of {COUNT}", self.listed));
        }
        if !self.pairs.contains_key(&0) {
            return Some("the solutions of two loadings".into());
        }
        let sizes = [0, 49, usize::MAX].map(|n| (n, [3, 0, 0], false));
        let mut due = (1..=48).flat_map(due).chain(sizes);
        let (n, refusal, backward) = due.find(|ended| !self.ended.contains_key(ended))?;
        let pass = if backward { ", backward" } else { "" };
        Some(format!("a system of n {n} with refusal {refusal:?}{pass}"))
    }

    fn count(&self, counted: impl Fn(&Ended) -> bool) -> u64 {
        let found = self.ended.iter().filter(|(ended, _)| counted(ended));
        found.map(|(_, count)| count).sum()
    }
}

/// How systems of n rows end: each refusal at each place.
fn due(n: usize) -> impl Iterator<Item = Ended> {
    let lengths = [0, 4, 5, 14].map(|number| [number, 0, 0]);
    let rows = (0..n).flat_map(|t| [6, 9, 15].map(|number| [number, t, 0]));
    let entries = (0..n).flat_map(|i| (0..=i).map(move |j| [7, i, j]));
    let forward = lengths.into_iter().chain(rows).chain(entries);
    let backward = (0..n).map(move |t| (n, [9, t, 0], true));
    forward
        .map(move |refusal| (n, refusal, false))
        .chain(backward)
}

impl fmt::Display for SolveReport {
    fn fmt(&self, f: &mut fmt::Formatter) -> fmt::Result {
        let nine =
            |pass: bool| self.count(|(_, refusal, backward)| refusal[0] == 9 && *backward == pass);
        let pairs = self.pairs.iter().map(|(r, n)| format!("{r}: {n}"));
        writeln!(
            f,
            "systems to solve: {}, {} of them of the list, {} with the port's factor; {} complete, refused \
             9 {} forward, {} backward; pairs of loadings, by refusal: {}",
            self.count(|_| true),
            self.listed,
            self.factored,
            self.count(|(_, refusal, _)| refusal[0] == 0),
            nine(false),
            nine(true),
            pairs.collect::<Vec<_>>().join(", ")
        )
    }
}
