//! `replay FILE` writes the replayed list. For each case the file has a matrix record and its answer
//! record, each after its length in two bytes, the low byte first. A table of what the list covers
//! goes to standard error.

use oracle::record::Reply;
use oracle::replay::{framed, list};
use oracle::table::{report, tally, Run, NAMES};
use oracle::NOT_FINITE;
use std::process::ExitCode;

struct Case {
    kind: String,
    record: Vec<u8>,
    reply: Reply,
}

fn main() -> ExitCode {
    let given: Vec<String> = std::env::args().skip(1).collect();
    let [path] = &given[..] else {
        eprintln!("usage: replay FILE");
        return ExitCode::from(2);
    };
    let cases = cases();
    let file = file(&cases);
    if let Err(error) = std::fs::write(path, &file) {
        eprintln!("{path}: {error}");
        return ExitCode::FAILURE;
    }
    report_kinds(&cases);
    report(&cases.iter().filter_map(run).collect::<Vec<Run>>());
    eprintln!("{} cases, {} bytes", cases.len(), file.len());
    ExitCode::SUCCESS
}

fn cases() -> Vec<Case> {
    let answered = list().into_iter().map(|entry| Case {
        reply: entry.reply(),
        kind: entry.kind,
        record: entry.record,
    });
    answered.collect()
}

fn file(cases: &[Case]) -> Vec<u8> {
    cases
        .iter()
        .flat_map(|case| framed(&case.record, &case.reply.record()))
        .collect()
}

fn report_kinds(cases: &[Case]) {
    let [gmw81, se90, se99] = NAMES;
    eprintln!(
        "{:33} {:>5} {gmw81:>5} {se90:>4} {se99:>4} {:>5} {:>4} {:>6}  refusals; n",
        "kind", "cases", "other", "tied", "phase2"
    );
    let mut kinds: Vec<&str> = Vec::new();
    for case in cases {
        if !kinds.contains(&case.kind.as_str()) {
            kinds.push(&case.kind);
        }
    }
    for kind in kinds {
        report_kind(
            kind,
            cases.iter().filter(|case| case.kind == kind).collect(),
        );
    }
}

/// The column `other` has records without a method, or with one that is refused.
fn report_kind(kind: &str, cases: Vec<&Case>) {
    let count = |test: &dyn Fn(&Reply) -> bool| cases.iter().filter(|c| test(&c.reply)).count();
    let [gmw81, se90, se99] = [1, 2, 3].map(|m| count(&|reply| method(reply) == Some(m)));
    let other = count(&|reply| method(reply).is_none());
    let tied = count(&|reply| reply.tied.is_some());
    let phase_two = count(&|reply| reply.phase_two.is_some());
    let refusals = tally(cases.iter().map(|case| case.reply.refusal()));
    let sizes = tally(
        cases
            .iter()
            .filter_map(|case| case.reply.header)
            .map(|(_, n)| n),
    );
    eprintln!(
        "{kind:33} {:5} {gmw81:5} {se90:4} {se99:4} {other:5} {tied:4} {phase_two:6}  {refusals}; {sizes}",
        cases.len()
    );
}

fn method(reply: &Reply) -> Option<u8> {
    let (method, _) = reply.header?;
    (1..=3).contains(&method).then_some(method)
}

/// What the second table notes, if the record passes every check.
fn run(case: &Case) -> Option<Run> {
    let (method, n) = case.reply.header?;
    let (refused, inexact) = match &case.reply.outcome {
        Ok(answer) => (None, Some(answer.inexact)),
        Err(refusal) if refusal.number == NOT_FINITE => (Some(refusal.place[0].into()), None),
        Err(_) => return None,
    };
    Some(Run {
        method,
        n: n.into(),
        refused,
        tied: case.reply.tied,
        phase_two: case.reply.phase_two,
        inexact,
    })
}
