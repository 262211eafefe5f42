//! Tables of what occurred in a list of runs.

use std::collections::BTreeMap;
use std::fmt::Display;

pub const NAMES: [&str; 3] = ["GMW81", "SE90", "SE99"];

/// What a table notes of one run.
pub struct Run {
    pub method: u8,
    pub n: usize,
    pub refused: Option<usize>,
    pub tied: Option<usize>,
    pub phase_two: Option<usize>,
    /// Of a complete run.
    pub inexact: Option<usize>,
}

/// Prints, for each method, how many runs were complete (by n, and by inexact roots), refused, tied and in
/// phase two (by step), on standard error.
pub fn report(runs: &[Run]) {
    for (index, name) in NAMES.iter().enumerate() {
        let own: Vec<&Run> = runs
            .iter()
            .filter(|run| usize::from(run.method) == index + 1)
            .collect();
        let complete = |run: &Run| run.refused.is_none().then_some(run.n);
        line(name, "complete, by n", &own, complete);
        line(name, "by inexact roots", &own, |run| run.inexact);
        line(name, "phase two at step", &own, |run| run.phase_two);
        line(name, "refused at step", &own, |run| run.refused);
        line(name, "tied at step", &own, |run| run.tied);
    }
}

fn line(name: &str, mark: &str, runs: &[&Run], value: impl Fn(&Run) -> Option<usize>) {
    let values: Vec<usize> = runs.iter().filter_map(|run| value(run)).collect();
    let total = values.len();
    eprintln!("{name:5} {mark:17} {total:6}  {}", tally(values));
}

/// Each value with its count.
pub fn tally<T: Ord + Display>(values: impl IntoIterator<Item = T>) -> String {
    let mut counts: BTreeMap<T, usize> = BTreeMap::new();
    for value in values {
        *counts.entry(value).or_default() += 1;
    }
    let words: Vec<String> = counts
        .iter()
        .map(|(v, count)| format!("{v}:{count}"))
        .collect();
    words.join(" ")
}
