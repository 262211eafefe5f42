//! `cases COUNT MAXN SEED` prints one line for each case, its parts separated by single spaces:
//!
//!     method n tied phase_two refusal step inexact count numbers A p e L
//!
//! tied and phase_two are 255 for none. refusal is 0 or 9, and step is the refused step, 0 in a
//! complete run. inexact is how many roots on the diagonal are, 0 after a refusal. count is 0, and there
//! are no numbers. A is the matrix, n * n entries by rows; p has n numbers; e has n entries; L has n * n
//! by rows. Entries are the 16 hexadecimal digits of a double's bits. After a refusal p, e and L are its
//! fillings. A table of what occurred goes to standard error.
//!
//! `cases COUNT MAXN SEED numbered` prints matrices with ties and contract numbers, count of them. The answers are the
//! Rust's or, with numbers and where SE90 meets a pivot at or below zero, the second implementation's.
//!
//! `cases COUNT MAXN SEED solve` prints systems to solve and the second implementation's answers:
//!
//!     n refusal row column lengths L p b y answer
//!
//! lengths are four numbers, those of L, p, b and y as it is lent; the answer is y as it is left.

use oracle::generate::cases;
use oracle::generate::rng::Rng;
use oracle::numbered::{Numbered, TYING};
use oracle::record::{bytes, doubles};
use oracle::second::solve::{solve, System};
use oracle::systems::{changed, drawn};
use oracle::table::{report, Run};
use oracle::{answer, Answer, COMPLETE, GMW81};
use std::fmt::Display;
use std::io::{self, BufWriter, Write};
use std::process::ExitCode;

const NONE: usize = 255;

fn main() -> ExitCode {
    let words: Vec<String> = std::env::args().skip(1).collect();
    let given: Vec<Option<usize>> = words.iter().map(|word| word.parse().ok()).collect();
    let kind = words.get(3).map(|word| &word[..]);
    match (&given[..given.len().min(3)], kind) {
        (&[Some(count), Some(max_n @ 1..=48), Some(seed)], None | Some("numbered" | "solve")) => {
            let printed = match kind {
                None => print(&plain(count, max_n, seed as u64)),
                Some("numbered") => print(&with_numbers(count, max_n, seed as u64)),
                _ => print_systems(count, max_n, seed as u64),
            };
            printed.expect("standard output is open");
            ExitCode::SUCCESS
        }
        _ => {
            eprintln!("usage: cases COUNT MAXN SEED [numbered | solve], with MAXN from 1 to 48");
            ExitCode::from(2)
        }
    }
}

/// A matrix, which has no numbers where their list is empty, and its answer.
type Answered = (Numbered, Answer);

fn plain(count: usize, max_n: usize, seed: u64) -> Vec<Answered> {
    let answered = cases(count, max_n, seed).map(|case| {
        let answer = answer(case.method, case.n, &case.matrix, None);
        let made = Numbered {
            method: case.method,
            n: case.n,
            matrix: case.matrix,
            numbers: vec![],
        };
        (made, answer)
    });
    answered.collect()
}

/// The methods take turns, and with each the sorts.
fn with_numbers(count: usize, max_n: usize, seed: u64) -> Vec<Answered> {
    let answered = (0..count).map(|index| {
        let mut rng = Rng::new(seed, index as u64);
        let (method, sort) = (GMW81 + (index % 3) as u8, TYING[index / 3 % TYING.len()]);
        let n = 1 + rng.below(max_n);
        let made = Numbered::new(sort, method, n, &mut rng);
        let answer = answer(method, n, &made.matrix, Some(&made.numbers));
        (made, answer)
    });
    answered.collect()
}

fn print(all: &[Answered]) -> io::Result<()> {
    let mut out = BufWriter::new(io::stdout().lock());
    for (made, answer) in all {
        writeln!(out, "{}", line(made, answer))?;
    }
    out.flush()?;
    let runs = all.iter().map(|(made, answer)| run(made, answer));
    report(&runs.collect::<Vec<Run>>());
    Ok(())
}

/// Every second one has an operand changed, or two.
fn print_systems(count: usize, max_n: usize, seed: u64) -> io::Result<()> {
    let mut rng = Rng::new(seed, 0);
    for index in 0..count {
        let drawn = drawn(1 + rng.below(max_n), &mut rng);
        let system = match index % 2 {
            0 => drawn,
            _ => changed(drawn, &mut rng),
        };
        writeln!(io::stdout(), "{}", system_line(&whole(system)))?;
    }
    Ok(())
}

/// Of a call on doubles: what is cut is left out, and y is lent with whole numbers.
fn whole(system: System) -> System {
    let lent: Vec<f64> = (1..=system.y.len() / 8).map(|k| k as f64).collect();
    System {
        l: bytes(&doubles(&system.l)),
        b: bytes(&doubles(&system.b)),
        y: bytes(&lent),
        ..system
    }
}

fn system_line(system: &System) -> String {
    let (n, p) = (system.n, &system.p);
    let [l, b, y] = [&system.l, &system.b, &system.y].map(|list| doubles(list));
    let solved = solve(system);
    let [number, row, column] = solved.refusal;
    spaced([
        joined([n, number, row, column, l.len(), p.len(), b.len(), y.len()]),
        joined(bits(&l)),
        joined(p),
        joined(bits(&b)),
        joined(bits(&y)),
        joined(bits(&doubles(&solved.y))),
    ])
}

fn line(made: &Numbered, answer: &Answer) -> String {
    let mark = |step: Option<usize>| step.unwrap_or(NONE);
    let head = [
        made.method.into(),
        made.n,
        mark(answer.tied),
        mark(answer.phase_two),
        answer.refusal.into(),
        answer.step,
        answer.inexact,
        made.numbers.len(),
    ];
    spaced([
        joined(head),
        joined(&made.numbers),
        joined(bits(&made.matrix)),
        joined(&answer.p),
        joined(bits(&answer.e)),
        joined(bits(&answer.l)),
    ])
}

/// The parts that aren't empty.
fn spaced(parts: impl IntoIterator<Item = String>) -> String {
    let parts: Vec<String> = parts.into_iter().filter(|part| !part.is_empty()).collect();
    parts.join(" ")
}

fn bits(list: &[f64]) -> impl Iterator<Item = String> + '_ {
    list.iter().map(|x| format!("{:016x}", x.to_bits()))
}

fn joined(list: impl IntoIterator<Item = impl Display>) -> String {
    let words: Vec<String> = list.into_iter().map(|item| item.to_string()).collect();
    words.join(" ")
}

fn run(made: &Numbered, answer: &Answer) -> Run {
    Run {
        method: made.method,
        n: made.n,
        refused: (answer.refusal != COMPLETE).then_some(answer.step),
        tied: answer.tied,
        phase_two: answer.phase_two,
        inexact: (answer.refusal == COMPLETE).then_some(answer.inexact),
    }
}
