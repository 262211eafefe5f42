//! Matrices with contract numbers: the port beside the second implementation, and differently loaded.

use crate::answer::{self, Answer};
use crate::factor::{self, Operands};
use crate::report::Report;
use crate::run::{self, noted};
use crate::{load_order, records, solve};
use oracle::generate::rng::Rng;
use oracle::generate::Case;
use oracle::numbered::{Numbered, TYING};
use oracle::operands::not_finite;
use oracle::record::replied;
use oracle::second::judged;
use oracle::NOT_FINITE;

/// The case's matrix with numbers, or one with ties.
pub fn draw(case: &Case, rng: &mut Rng) -> Numbered {
    match rng.below(3) {
        0 => Numbered::of_case(case, rng),
        _ => Numbered::new(rng.pick(&TYING), case.method, case.n, rng),
    }
}

/// The record, the calls, and two loadings of it, then of one that is refused. The differences.
pub fn compare(made: &Numbered, rng: &mut Rng, report: &mut Report) -> Vec<String> {
    let judged = judged(made.method, made.n, &made.matrix, Some(&made.numbers));
    report.numbered.run(made, &judged);
    let reply = replied((made.method, made.n as u8), judged.answer);
    let record = made.record();
    let mut found = noted(records::calls(&record, &reply, rng), report);
    found.extend(noted(
        factor::accepted(&Operands::numbered(made), &reply),
        report,
    ));
    found.extend(noted(
        factor::refused(Operands::numbered(made), rng),
        report,
    ));
    let s = rng.permutation(made.n);
    found.extend(loadings(made, &s, rng, report));
    found.extend(refused_loadings(&spoiled(made, rng), &s, rng, report));
    found
}

fn port_answer(record: &[u8]) -> Option<Answer> {
    answer::read(&records::answer(record))
}

fn loadings(made: &Numbered, s: &[usize], rng: &mut Rng, report: &mut Report) -> Option<String> {
    let first = port_answer(&made.record())?;
    let pair = load_order::check_numbered(made, s, &first);
    report.numbered.pair(pair.alike, &first);
    let unsolved = solve::loadings(&pair, s, &first, rng, report);
    pair.unlike.or(unsolved)
}

/// With a number twice, an entry that isn't finite, or one unlike its mirror; one or two of these.
fn spoiled(made: &Numbered, rng: &mut Rng) -> Numbered {
    let mut out = made.clone();
    for _ in 0..1 + rng.below(2) {
        let (i, j) = (rng.below(made.n), rng.below(made.n));
        match rng.below(3) {
            0 => out.numbers[i] = out.numbers[j],
            1 => out.matrix[i * made.n + j] = not_finite(rng),
            _ => out.matrix[i * made.n + j] *= -1.0,
        }
    }
    out
}

/// A refusal before the first step keeps its number, not its place.
fn refused_loadings(
    made: &Numbered,
    s: &[usize],
    rng: &mut Rng,
    report: &mut Report,
) -> Vec<String> {
    let both = [made.record(), made.reloaded(s).record()];
    let mut found = Vec::new();
    for record in &both {
        found.extend(run::record(record, rng, report).1);
    }
    let [first, second] = both.map(|record| port_answer(&record).map(|answer| answer.refusal));
    // The matrix may be sound all the same.
    if let Some(number) = first.filter(|&number| number != 0 && number != NOT_FINITE) {
        report.numbered.refused_pair(number);
        if first != second {
            found.push(format!(
                "reloaded by {s:?}: refusal {second:?} for {number}"
            ));
        }
    }
    found
}
