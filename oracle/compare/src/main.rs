//! `compare COUNT SEED [FIRST]` compares COUNT factorizations of the port with the oracle's, from
//! index FIRST (default 0) on, and with each a broken record, a reloading and every exported call; then
//! the lists of numbered matrices, of systems to solve and of small broken records.
//! It prints a line for each difference, and stops after 20. Exit status 1 if there is one.

use std::io::Write;
use std::process::ExitCode;

fn main() -> ExitCode {
    let given: Vec<Option<u64>> = std::env::args()
        .skip(1)
        .map(|arg| arg.parse().ok())
        .collect();
    let report = match given[..] {
        [Some(count), Some(seed)] => compare::compare(seed, 0..count),
        [Some(count), Some(seed), Some(first)] => {
            compare::compare(seed, first..first.saturating_add(count))
        }
        _ => {
            eprintln!("usage: compare COUNT SEED [FIRST]");
            return ExitCode::from(2);
        }
    };
    // A closed pipe is no difference.
    let _ = write!(std::io::stdout(), "{report}");
    ExitCode::from(u8::from(report.differs()))
}
