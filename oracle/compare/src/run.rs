//! A comparison, index by index, then of the fixed lists.

use crate::calls::Called;
use crate::factor::{self, Operands};
use crate::report::Report;
use crate::{answer, broken, calls, draw, last_block, load_order, numbered, records, small, solve};
use oracle::generate::rng::Rng;
use oracle::generate::{pivot_list, Case};
use oracle::numbered::list;
use oracle::record::{matrix_record, replied, reply, Reply};
use oracle::second::judged;
use oracle::systems;
use oracle::table::NAMES;
use oracle::{Answer, SE90, SE99};
use std::ops::Range;
use std::panic::catch_unwind;

pub fn compare(seed: u64, indexes: Range<u64>) -> Report {
    let mut report = Report::new();
    for index in indexes {
        let found = compare_one(seed, index, &mut report);
        if told(&format!("index {index}"), found, &mut report) {
            return report;
        }
    }
    pivots(&mut report);
    numbered_list(&mut report);
    systems_list(&mut report);
    small_records(&mut report);
    report
}

/// SE90 of every n with a pivot at or below zero.
fn pivots(report: &mut Report) {
    for (number, case) in pivot_list().iter().enumerate() {
        if report.has_enough() {
            return;
        }
        let found = factorization(case, &mut Rng::new(0, number as u64), report);
        let at = format!("pivot {number}");
        let said = |words: String| format!("{at}, n {}: {words}", case.n);
        told(&at, found.into_iter().map(said).collect(), report);
    }
}

/// Matrices with numbers of every sort, method and n.
fn numbered_list(report: &mut Report) {
    for (number, (sort, made)) in list().iter().enumerate() {
        if report.has_enough() {
            return;
        }
        let found = numbered::compare(made, &mut Rng::new(0, number as u64), report);
        report.numbered.listed();
        let at = format!("numbered matrix {number}");
        let name = NAMES[usize::from(made.method) - 1];
        let said = |words: String| format!("{at}, {name} n {} {sort:?}: {words}", made.n);
        told(&at, found.into_iter().map(said).collect(), report);
    }
}

/// Systems to solve of every n, with every kind of fault.
fn systems_list(report: &mut Report) {
    let sized = (1..=48).flat_map(systems::of_size);
    for (number, system) in systems::refused_together()
        .into_iter()
        .chain(sized)
        .enumerate()
    {
        if report.has_enough() {
            return;
        }
        let found = solve::compare(&system, report);
        report.solve.listed();
        let at = format!("system {number}");
        let said = |words: String| format!("{at}, {words}");
        told(&at, found.into_iter().map(said).collect(), report);
    }
}

fn small_records(report: &mut Report) {
    let all = small::records().into_iter().chain(small::numbered());
    for (number, record) in all.enumerate() {
        if report.has_enough() {
            return;
        }
        let found = small_record(number, &record, report);
        told(&format!("small record {number}"), found, report);
    }
}

/// Whether there are enough differences.
fn told(at: &str, differences: Vec<String>, report: &mut Report) -> bool {
    for difference in differences {
        println!("{difference}");
        report.difference(at);
    }
    report.has_enough()
}

/// The differences, each with what is needed to repeat it.
fn compare_one(seed: u64, index: u64, report: &mut Report) -> Vec<String> {
    let mut rng = Rng::new(seed, index);
    let case = draw::case(index, &mut rng);
    let found = [
        factorization(&case, &mut rng, report),
        last_block(&mut rng, report),
        broken_record(broken::record(&mut rng), &mut rng, report),
        helpers(&mut rng, report),
        with_numbers(&case, &mut rng, report),
        broken_record(broken::numbered(&mut rng), &mut rng, report),
        solve::draw(case.n, &mut rng, report),
    ];
    let name = NAMES[usize::from(case.method) - 1];
    let at = format!(
        "seed {seed} index {index} {name} n {} {:?}",
        case.n, case.kind
    );
    let lines = found.into_iter().flatten();
    lines.map(|words| format!("{at}: {words}")).collect()
}

fn factorization(case: &Case, rng: &mut Rng, report: &mut Report) -> Vec<String> {
    let record = matrix_record(case.method, case.n as u8, &case.matrix);
    let mut found = Vec::new();
    match answered(&record) {
        None => found.push("the oracle panicked".to_string()),
        Some(reply) => {
            report.run(case, &reply);
            let second = judged(case.method, case.n, &case.matrix, None);
            report.left_out.add(case.n, &second);
            found.extend(second_implementation(case, second.answer, &reply));
            found.extend(noted(records::calls(&record, &reply, rng), report));
            found.extend(noted(
                factor::accepted(&Operands::of_case(case), &reply),
                report,
            ));
            found.extend(noted(factor::refused(Operands::of_case(case), rng), report));
        }
    }
    if let Some(first) = answer::read(&records::answer(&record)) {
        let s = rng.permutation(case.n);
        let pair = load_order::check(case, &s, &first);
        report.pair(pair.alike);
        found.extend(solve::loadings(&pair, &s, &first, rng, report));
        found.extend(pair.unlike);
        found.extend(solve::with_factor(&first, rng, report));
    }
    found
}

/// Where it differs from the Rust, if the Rust could be asked.
fn second_implementation(case: &Case, second: Answer, reply: &Reply) -> Option<String> {
    let second = replied((case.method, case.n as u8), second);
    let difference = answer::difference(&second.record(), &reply.record());
    difference.map(|words| format!("second implementation for the port: {words}"))
}

fn with_numbers(case: &Case, rng: &mut Rng, report: &mut Report) -> Vec<String> {
    let made = numbered::draw(case, rng);
    let found = numbered::compare(&made, rng, report);
    let said = |words: String| format!("numbered: {words}");
    found.into_iter().map(said).collect()
}

/// Nothing if the oracle has no answer of document 01.
fn answered(record: &[u8]) -> Option<Reply> {
    catch_unwind(|| reply(record)).ok()
}

/// The differences.
pub fn noted(made: impl IntoIterator<Item = Called>, report: &mut Report) -> Vec<String> {
    let noted = made.into_iter().inspect(|called| report.call(called));
    noted.filter_map(|called| called.difference).collect()
}

/// By both methods, where one is found.
fn last_block(rng: &mut Rng, report: &mut Report) -> Vec<String> {
    let mut found = Vec::new();
    if let Some(block) = last_block::search(rng) {
        for method in [SE90, SE99] {
            report.last_block();
            found.extend(record(&matrix_record(method, 2, &block), rng, report).1);
        }
    }
    found
        .iter()
        .map(|words| format!("last block: {words}"))
        .collect()
}

fn broken_record(broken: Vec<u8>, rng: &mut Rng, report: &mut Report) -> Vec<String> {
    let (reply, found) = record(&broken, rng, report);
    if let Some(reply) = reply {
        report.broken(&reply);
    }
    let said = |words: String| format!("broken record of {} bytes: {words}", broken.len());
    found.into_iter().map(said).collect()
}

/// The buffers of other lengths take turns.
fn small_record(number: usize, record: &[u8], report: &mut Report) -> Vec<String> {
    let Some(reply) = answered(record) else {
        return vec![format!("small record {number}: the oracle panicked")];
    };
    let other = records::OTHER_LENGTHS[number % records::OTHER_LENGTHS.len()];
    let made = records::both_lengths(record, &reply, other);
    report.small(&reply, made.len());
    let said = |words: String| format!("small record {number}, {}: {words}", shown(record));
    noted(made, report).into_iter().map(said).collect()
}

/// The bytes, as far as a line has room.
fn shown(record: &[u8]) -> String {
    let bytes: Vec<String> = record
        .iter()
        .take(100)
        .map(|b| format!("{b:02x}"))
        .collect();
    format!("{} bytes {}", record.len(), bytes.join(" "))
}

/// The oracle's answer, and the differences.
pub fn record(record: &[u8], rng: &mut Rng, report: &mut Report) -> (Option<Reply>, Vec<String>) {
    match answered(record) {
        None => (None, vec!["the oracle panicked".into()]),
        Some(reply) => {
            let found = noted(records::calls(record, &reply, rng), report);
            (Some(reply), found)
        }
    }
}

fn helpers(rng: &mut Rng, report: &mut Report) -> Vec<String> {
    noted(calls::helpers(rng), report)
}

#[cfg(test)]
mod tests {
    use super::*;

    #[test]
    fn the_port_answers_as_the_oracle_does() {
        let report = compare(7, 0..1000);
        assert!(!report.differs());
        let words = report.to_string();
        assert!(words.ends_with("\n0 differences\n"));
        assert!(words.contains("\nsmall broken records: 168778 of 168778 comparisons, "));
    }

    /// A difference can be repeated by its seed and index alone.
    #[test]
    fn an_index_gives_the_same_matrix_again() {
        let case = |index: u64| draw::case(index, &mut Rng::new(7, index));
        let bits = |case: Case| {
            case.matrix
                .into_iter()
                .map(f64::to_bits)
                .collect::<Vec<_>>()
        };
        assert!((0..200).all(|index| bits(case(index)) == bits(case(index))));
    }
}
