//! What a comparison met, and how often it differed.

use crate::calls::Called;
use crate::left_out::LeftOut;
use crate::load_order::Alike;
use crate::numbered_report::NumberedReport;
use crate::roots::Roots;
use crate::small;
use crate::solve_report::SolveReport;
use oracle::generate::Case;
use oracle::record::{Reply, PAST_END, TAG_NOT_DUE};
use oracle::table::NAMES;
use std::collections::BTreeMap;
use std::fmt;
use std::time::Instant;

/// After so many differences the comparison stops.
const ENOUGH: usize = 20;

/// The last n of each range of the table.
const RANGES: [usize; 5] = [4, 8, 16, 32, 48];

#[derive(Clone, Copy, Default)]
struct Row {
    runs: u64,
    complete: u64,
    refused: u64,
    tied: u64,
    phase_two: u64,
    roots: Roots,
}

/// Each small record is asked for on two buffers.
const SMALL_DUE: usize = 2 * (small::COUNT + small::NUMBERED_COUNT);

/// A refusal's number, and the field if it has one.
type Kind = (u8, Option<u8>);

pub struct Report {
    began: Instant,
    runs: [[Row; RANGES.len()]; NAMES.len()],
    sizes: [u64; 49],
    last_blocks: u64,
    broken: BTreeMap<Kind, u64>,
    small: BTreeMap<Kind, u64>,
    small_comparisons: usize,
    calls: BTreeMap<&'static str, BTreeMap<usize, u64>>,
    pairs: BTreeMap<Alike, u64>,
    pub left_out: LeftOut,
    pub numbered: NumberedReport,
    pub solve: SolveReport,
    /// Where the first was, and how many.
    differences: Option<(String, usize)>,
}

impl Report {
    pub fn new() -> Self {
        Report {
            began: Instant::now(),
            runs: Default::default(),
            sizes: [0; 49],
            last_blocks: 0,
            broken: BTreeMap::new(),
            small: BTreeMap::new(),
            small_comparisons: 0,
            calls: BTreeMap::new(),
            pairs: BTreeMap::new(),
            left_out: LeftOut::default(),
            numbered: NumberedReport::new(),
            solve: SolveReport::default(),
            differences: None,
        }
    }

    pub fn run(&mut self, case: &Case, reply: &Reply) {
        let range = RANGES.iter().position(|&last| case.n <= last);
        let row = &mut self.runs[usize::from(case.method) - 1][range.expect("n is at most 48")];
        row.runs += 1;
        row.complete += u64::from(reply.outcome.is_ok());
        row.refused += u64::from(reply.outcome.is_err());
        row.tied += u64::from(reply.tied.is_some());
        row.phase_two += u64::from(reply.phase_two.is_some());
        if let Ok(answer) = &reply.outcome {
            row.roots = row.roots + Roots::of(answer);
        }
        self.sizes[case.n] += 1;
    }

    pub fn last_block(&mut self) {
        self.last_blocks += 1;
    }

    pub fn broken(&mut self, reply: &Reply) {
        *self.broken.entry(kind(reply)).or_default() += 1;
    }

    pub fn small(&mut self, reply: &Reply, comparisons: usize) {
        *self.small.entry(kind(reply)).or_default() += 1;
        self.small_comparisons += comparisons;
    }

    pub fn call(&mut self, called: &Called) {
        let refusals = self.calls.entry(called.call).or_default();
        *refusals.entry(called.refusal).or_default() += 1;
    }

    pub fn pair(&mut self, alike: Alike) {
        *self.pairs.entry(alike).or_default() += 1;
    }

    pub fn difference(&mut self, at: &str) {
        let (_, count) = self.differences.get_or_insert((at.to_string(), 0));
        *count += 1;
    }

    /// Also if a comparison is missing.
    pub fn differs(&self) -> bool {
        self.differences.is_some() || self.missing().is_some()
    }

    /// What wasn't compared and should have been.
    fn missing(&self) -> Option<String> {
        if self.small_comparisons != SMALL_DUE {
            return Some("every small broken record".into());
        }
        let missing = self.left_out.missing().or_else(|| self.numbered.missing());
        missing.or_else(|| self.solve.missing())
    }

    pub fn has_enough(&self) -> bool {
        self.count() >= ENOUGH
    }

    fn count(&self) -> usize {
        self.differences.as_ref().map_or(0, |(_, count)| *count)
    }

    fn total(&self) -> u64 {
        self.sizes.iter().sum()
    }

    fn runs(&self, f: &mut fmt::Formatter) -> fmt::Result {
        writeln!(
            f,
            "method n        runs  complete refused 9    tied  phase two  {}",
            Roots::HEAD
        )?;
        for (name, rows) in NAMES.iter().zip(&self.runs) {
            let mut first = 1;
            for (row, last) in rows.iter().zip(RANGES) {
                line(f, name, &format!("{first}-{last}"), row)?;
                first = last + 1;
            }
            let all = rows.iter().fold(Row::default(), sum);
            line(f, name, "all", &all)?;
        }
        let unmet: Vec<usize> = (1..=48).filter(|&n| self.sizes[n] == 0).collect();
        writeln!(f, "n from 1 to 48 that didn't occur: {unmet:?}")
    }

    fn pairs(&self, f: &mut fmt::Formatter) -> fmt::Result {
        let from = |least: Alike| self.pairs.range(least..).map(|(_, n)| n).sum::<u64>();
        let (all, untied) = (from(Alike::Tied), from(Alike::PhaseTwo));
        writeln!(
            f,
            "load order: {all} pairs, {} tied (tied step alike), {untied} untied (also phase-two \
             step), {} of these without phase two (also refusal, place and inexact roots), {} of these complete \
             (also L, e and p)",
            all - untied,
            from(Alike::Refused),
            from(Alike::Complete)
        )
    }
}

fn sum(x: Row, y: &Row) -> Row {
    Row {
        runs: x.runs + y.runs,
        complete: x.complete + y.complete,
        refused: x.refused + y.refused,
        tied: x.tied + y.tied,
        phase_two: x.phase_two + y.phase_two,
        roots: x.roots + y.roots,
    }
}

fn line(f: &mut fmt::Formatter, name: &str, range: &str, row: &Row) -> fmt::Result {
    writeln!(
        f,
        "{name:6} {range:5} {:7} {:9} {:9} {:7} {:10}  {}",
        row.runs, row.complete, row.refused, row.tied, row.phase_two, row.roots
    )
}

fn by_refusal(counts: &BTreeMap<usize, u64>) -> String {
    let words: Vec<String> = counts.iter().map(|(r, n)| format!("{r}: {n}")).collect();
    words.join(", ")
}

fn kind(reply: &Reply) -> Kind {
    match &reply.outcome {
        Err(r) if [PAST_END, TAG_NOT_DUE].contains(&r.number) => (r.number, Some(r.place[0])),
        _ => (reply.refusal(), None),
    }
}

fn by_kind(counts: &BTreeMap<Kind, u64>) -> String {
    let word = |((number, field), n): (&Kind, &u64)| match field {
        Some(field) => format!("{number} at {field}: {n}"),
        None => format!("{number}: {n}"),
    };
    counts.iter().map(word).collect::<Vec<_>>().join(", ")
}

impl fmt::Display for Report {
    fn fmt(&self, f: &mut fmt::Formatter) -> fmt::Result {
        self.runs(f)?;
        writeln!(f, "left out, {}", self.left_out)?;
        self.pairs(f)?;
        write!(f, "{}{}", self.numbered, self.solve)?;
        writeln!(
            f,
            "last blocks on which SE90 and SE99 differ: {}",
            self.last_blocks
        )?;
        writeln!(f, "broken records by refusal: {}", by_kind(&self.broken))?;
        writeln!(
            f,
            "small broken records: {} of {SMALL_DUE} comparisons, by refusal: {}",
            self.small_comparisons,
            by_kind(&self.small)
        )?;
        for (call, counts) in &self.calls {
            writeln!(f, "{call} by refusal: {}", by_refusal(counts))?;
        }
        let seconds = self.began.elapsed().as_secs_f64();
        writeln!(f, "{} runs in {seconds:.1} s", self.total())?;
        if let Some((first, _)) = &self.differences {
            writeln!(f, "first difference at {first}")?;
        } else if let Some(missing) = self.missing() {
            writeln!(f, "not compared: {missing}")?;
        }
        writeln!(f, "{} differences", self.count())
    }
}

#[cfg(test)]
mod tests {
    use super::*;

    #[test]
    fn a_missing_comparison_is_no_agreement() {
        let report = Report::new();
        assert!(report.differs());
        let words = report.to_string();
        assert!(words.contains("\nnot compared: every small broken record\n"));
        let numbered = report.numbered.missing().unwrap();
        assert_eq!(numbered, "0 numbered matrices of 1728");
        let solve = report.solve.missing().unwrap();
        assert_eq!(solve, "0 systems of 76551");
    }
}
