//! What a comparison met of matrices with numbers.

use crate::answer::{Answer, NONE};
use crate::left_out::LeftOut;
use crate::load_order::Alike;
use crate::roots::Roots;
use oracle::numbered::{Numbered, COUNT};
use oracle::second::Judged;
use oracle::table::NAMES;
use oracle::{COMPLETE, GMW81};
use std::collections::BTreeMap;
use std::fmt;

#[derive(Clone, Copy, Default)]
struct Row {
    runs: u64,
    complete: u64,
    refused: u64,
    tied: u64,
    phase_two: u64,
    /// Runs in which a tie was settled otherwise than by position, in GMW81 or phase one.
    settled: u64,
    /// The same in phase two.
    settled_in_two: u64,
    roots: Roots,
}

impl Row {
    fn add(&mut self, judged: &Judged) {
        let (answer, ties) = (&judged.answer, judged.ties);
        self.runs += 1;
        self.complete += u64::from(answer.refusal == COMPLETE);
        self.refused += u64::from(answer.refusal != COMPLETE);
        self.tied += u64::from(answer.tied.is_some());
        self.phase_two += u64::from(answer.phase_two.is_some());
        self.settled += u64::from(ties.moved > 0);
        self.settled_in_two += u64::from(ties.moved_unreported > 0);
        if answer.refusal == COMPLETE {
            self.roots = self.roots + Roots::of(answer);
        }
    }

    fn sum(rows: &[Row], count: impl Fn(&Row) -> u64) -> u64 {
        rows.iter().map(count).sum()
    }

    fn roots(rows: &[Row]) -> Roots {
        rows.iter()
            .fold(Roots::default(), |acc, row| acc + row.roots)
    }
}

/// Pairs of loadings, those with a tied step apart.
type Pairs = BTreeMap<(Alike, bool), u64>;

pub struct NumberedReport {
    rows: [[Row; 49]; NAMES.len()],
    listed: usize,
    left_out: LeftOut,
    pairs: Pairs,
    refused_pairs: BTreeMap<u8, u64>,
}

impl NumberedReport {
    pub fn new() -> Self {
        NumberedReport {
            rows: [[Row::default(); 49]; NAMES.len()],
            listed: 0,
            left_out: LeftOut::default(),
            pairs: BTreeMap::new(),
            refused_pairs: BTreeMap::new(),
        }
    }

    pub fn run(&mut self, made: &Numbered, judged: &Judged) {
        self.rows[usize::from(made.method) - 1][made.n].add(judged);
        self.left_out.add(made.n, judged);
    }

    /// One of the fixed list was compared.
    pub fn listed(&mut self) {
        self.listed += 1;
    }

    pub fn pair(&mut self, alike: Alike, first: &Answer) {
        *self.pairs.entry((alike, first.tied != NONE)).or_default() += 1;
    }

    pub fn refused_pair(&mut self, refusal: u8) {
        *self.refused_pairs.entry(refusal).or_default() += 1;
    }

    /// What should have occurred and didn't.
    pub fn missing(&self) -> Option<String> {
        if self.listed != COUNT {
            return Some(format!("{} numbered matrices of {COUNT}", self.listed));
        }
        let missing = self.missing_run().or(self.missing_pair());
        missing
            .or_else(|| self.missing_roots())
            .or_else(|| self.missing_pivot())
    }

    fn missing_pivot(&self) -> Option<String> {
        let missing = self.left_out.missing();
        missing.map(|words| format!("{words}, numbered"))
    }

    fn missing_run(&self) -> Option<String> {
        let methods = (GMW81..).zip(&self.rows);
        let mut rows =
            methods.flat_map(|(method, rows)| (1..=48).map(move |n| (method, n, &rows[n])));
        let (method, n, _) = rows.find(|(method, n, row)| is_missing(*method, *n, row))?;
        let name = NAMES[usize::from(method) - 1];
        Some(format!("every kind of numbered {name} run with n {n}"))
    }

    /// Each method has exact and inexact roots, also in one run.
    fn missing_roots(&self) -> Option<String> {
        let mut methods = NAMES.iter().zip(&self.rows);
        let (name, _) = methods.find(|(_, rows)| !Row::roots(&rows[..]).all_occurred())?;
        Some(format!("exact and inexact roots in numbered {name} runs"))
    }

    /// Each run has its reloading, and each refusal that reloading can move.
    fn missing_pair(&self) -> Option<String> {
        let runs: u64 = self.rows.iter().flatten().map(|row| row.runs).sum();
        let pairs: u64 = self.pairs.values().sum();
        let refused = [7, 8, 13];
        let all = runs == pairs && refused.iter().all(|r| self.refused_pairs.contains_key(r));
        (!all).then(|| "every loading of a numbered matrix".into())
    }

    fn pairs_with(&self, alike: Alike, tied: bool) -> u64 {
        self.pairs.get(&(alike, tied)).copied().unwrap_or(0)
    }

    fn runs(&self, f: &mut fmt::Formatter) -> fmt::Result {
        writeln!(
            f,
            "numbered        runs  complete refused 9    tied  settled by number  phase two  settled in it  {}",
            Roots::HEAD
        )?;
        for (name, rows) in NAMES.iter().zip(&self.rows) {
            let sum = |count: fn(&Row) -> u64| Row::sum(rows, count);
            writeln!(
                f,
                "{name:12} {:7} {:9} {:9} {:7} {:18} {:10} {:14}  {}",
                sum(|row| row.runs),
                sum(|row| row.complete),
                sum(|row| row.refused),
                sum(|row| row.tied),
                sum(|row| row.settled),
                sum(|row| row.phase_two),
                sum(|row| row.settled_in_two),
                Row::roots(rows)
            )?;
        }
        Ok(())
    }
}

/// A run, a tie settled by number and, in SE90 and SE99, one in phase two.
fn is_missing(method: u8, n: usize, row: &Row) -> bool {
    let two = method != GMW81 && n > 2;
    row.runs == 0 || (n > 1 && row.settled == 0) || (two && row.settled_in_two == 0)
}

impl fmt::Display for NumberedReport {
    fn fmt(&self, f: &mut fmt::Formatter) -> fmt::Result {
        self.runs(f)?;
        writeln!(f, "numbered, {}", self.left_out)?;
        let both = |alike| [true, false].map(|tied| self.pairs_with(alike, tied));
        let [tied, untied] = both(Alike::Complete);
        let [tied_in_two, untied_in_two] = both(Alike::PhaseTwo);
        let refused = self.refused_pairs.iter().map(|(r, n)| format!("{r}: {n}"));
        writeln!(
            f,
            "numbered load order: {} pairs alike in all, {tied} of these tied; {} in phase two (tied and \
             phase-two step alike), {tied_in_two} of these tied; refused before the run (number alike), \
             by refusal: {}",
            tied + untied,
            tied_in_two + untied_in_two,
            refused.collect::<Vec<_>>().join(", ")
        )
    }
}
