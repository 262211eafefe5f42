//! The port's answers to a matrix and to its reloading by s, without numbers and with. docs/DECISIONS.md,
//! 'Load order', says which parts are alike, and when.

use crate::answer::{read, Answer, NONE};
use crate::records;
use oracle::generate::Case;
use oracle::numbered::Numbered;
use oracle::record::matrix_record;
use oracle::GMW81;

/// How much of a pair of answers must be alike.
#[derive(Clone, Copy, Debug, PartialEq, Eq, PartialOrd, Ord)]
pub enum Alike {
    /// A step is tied: the tied steps.
    Tied,
    /// No step is tied, a second phase begins: also the phase-two steps.
    PhaseTwo,
    /// Neither: also the refusal with its place, and the count of inexact roots.
    Refused,
    /// Neither, and complete: all.
    Complete,
}

pub fn alike(answer: &Answer) -> Alike {
    match (answer.tied, answer.phase_two, answer.refusal) {
        (NONE, NONE, 0) => Alike::Complete,
        (NONE, NONE, _) => Alike::Refused,
        (NONE, _, _) => Alike::PhaseTwo,
        (_, _, _) => Alike::Tied,
    }
}

/// With numbers, ties included: GMW81 is alike in all, and so are SE90 and SE99 where no second phase
/// begins; else their tied and phase-two steps are.
pub fn alike_by_number(method: u8, answer: &Answer) -> Alike {
    match (method, answer.phase_two) {
        (GMW81, _) | (_, NONE) => Alike::Complete,
        _ => Alike::PhaseTwo,
    }
}

/// Row i of the result is row s[i].
fn reloaded(n: usize, matrix: &[f64], s: &[usize]) -> Vec<f64> {
    let row = |i: usize| (0..n).map(move |j| matrix[s[i] * n + s[j]]);
    (0..n).flat_map(row).collect()
}

/// Two loadings: how much of their answers must be alike, the second answer, and the first part that isn't.
pub struct Pair {
    pub alike: Alike,
    pub second: Option<Answer>,
    pub unlike: Option<String>,
}

pub fn check(case: &Case, s: &[usize], first: &Answer) -> Pair {
    let matrix = reloaded(case.n, &case.matrix, s);
    let record = matrix_record(case.method, case.n as u8, &matrix);
    pair(alike(first), s, first, &record)
}

/// The same with numbers, which move with their contracts.
pub fn check_numbered(made: &Numbered, s: &[usize], first: &Answer) -> Pair {
    let record = made.reloaded(s).record();
    pair(alike_by_number(made.method, first), s, first, &record)
}

/// With the answer to the record of the reloading.
fn pair(alike: Alike, s: &[usize], first: &Answer, record: &[u8]) -> Pair {
    let second = read(&records::answer(record));
    let unlike = match &second {
        None => Some("no answer record"),
        Some(second) => unlike(alike, s, first, second),
    };
    let unlike = unlike.map(|part| format!("reloaded by {s:?}: {part}"));
    Pair {
        alike,
        second,
        unlike,
    }
}

fn unlike(wanted: Alike, s: &[usize], first: &Answer, second: &Answer) -> Option<&'static str> {
    let e: Vec<u64> = picked(s, &first.e);
    let p: Vec<usize> = second.p.iter().map(|&row| s[row]).collect();
    let parts = [
        (Alike::Tied, first.tied == second.tied, "tied step"),
        (
            Alike::PhaseTwo,
            first.phase_two == second.phase_two,
            "phase-two step",
        ),
        (Alike::Refused, first.refusal == second.refusal, "refusal"),
        (Alike::Refused, first.place == second.place, "place"),
        (
            Alike::Refused,
            first.inexact == second.inexact,
            "inexact roots",
        ),
        (Alike::Complete, first.l == second.l, "L"),
        (Alike::Complete, e == second.e, "e"),
        (Alike::Complete, first.p == p, "p"),
    ];
    let found = parts
        .iter()
        .find(|(from, same, _)| *from <= wanted && !same);
    found.map(|(_, _, part)| *part)
}

/// The list whose entry i is list[s[i]]; empty if there is none.
fn picked(s: &[usize], list: &[u64]) -> Vec<u64> {
    s.iter().filter_map(|&i| list.get(i).copied()).collect()
}

#[cfg(test)]
mod tests {
    use super::*;

    fn first() -> Answer {
        Answer {
            refusal: 0,
            tied: NONE,
            phase_two: NONE,
            inexact: 2,
            p: vec![2, 0, 1],
            e: vec![5, 6, 7],
            l: vec![1, 2, 3],
            place: vec![],
        }
    }

    /// The answer to the reloading by 1, 2, 0.
    fn second() -> Answer {
        Answer {
            p: vec![1, 2, 0],
            e: vec![6, 7, 5],
            ..first()
        }
    }

    const S: [usize; 3] = [1, 2, 0];

    #[test]
    fn the_reloading_names_each_row_by_its_own_number() {
        assert_eq!(alike(&first()), Alike::Complete);
        assert_eq!(unlike(Alike::Complete, &S, &first(), &second()), None);
        let p = Answer {
            p: first().p,
            ..second()
        };
        assert_eq!(unlike(Alike::Complete, &S, &first(), &p), Some("p"));
        let e = Answer {
            e: first().e,
            ..second()
        };
        assert_eq!(unlike(Alike::Complete, &S, &first(), &e), Some("e"));
        let inexact = Answer {
            inexact: 1,
            ..second()
        };
        let unlike = unlike(Alike::Complete, &S, &first(), &inexact);
        assert_eq!(unlike, Some("inexact roots"));
    }

    #[test]
    fn a_tied_run_promises_its_tied_step_only() {
        let tied = |step: u8| Answer {
            tied: step,
            ..first()
        };
        assert_eq!(alike(&tied(0)), Alike::Tied);
        assert_eq!(unlike(Alike::Tied, &S, &tied(0), &tied(0)), None);
        assert_eq!(
            unlike(Alike::Tied, &S, &tied(0), &tied(1)),
            Some("tied step")
        );
    }

    #[test]
    fn numbers_settle_ties_but_not_the_sums_of_phase_two() {
        let tied = |phase_two: u8| Answer {
            tied: 0,
            phase_two,
            ..first()
        };
        assert_eq!(alike_by_number(GMW81, &tied(NONE)), Alike::Complete);
        assert_eq!(alike_by_number(2, &tied(NONE)), Alike::Complete);
        assert_eq!(alike_by_number(3, &tied(1)), Alike::PhaseTwo);
    }

    #[test]
    fn reloading_moves_rows_and_columns() {
        let matrix = [1.0, 2.0, 3.0, 2.0, 4.0, 5.0, 3.0, 5.0, 6.0];
        let moved = [4.0, 5.0, 2.0, 5.0, 6.0, 3.0, 2.0, 3.0, 1.0];
        assert_eq!(reloaded(3, &matrix, &S), moved);
    }
}
