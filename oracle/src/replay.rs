//! The list that the program `replay` runs through the port: records, with the Rust's answers and, where it can't be
//! asked, the second implementation's.

mod entries;
mod fields;
mod generated;
mod hand;
mod numbered;
mod phase_one;
mod pivots;
mod roots;
mod shape;
mod sides;
mod steps;
mod ties;

use crate::record::{matrix_record, reply, Reply};

#[derive(Clone, Debug)]
pub struct Entry {
    /// What the record is there for; the table's row.
    pub kind: String,
    pub record: Vec<u8>,
}

impl Entry {
    fn new(kind: impl Into<String>, record: Vec<u8>) -> Self {
        Entry {
            kind: kind.into(),
            record,
        }
    }

    /// From a square matrix by rows.
    fn of(kind: impl Into<String>, method: u8, matrix: &[f64]) -> Self {
        let n = matrix.len().isqrt();
        assert_eq!(n * n, matrix.len());
        Entry::new(kind, matrix_record(method, n as u8, matrix))
    }

    pub fn reply(&self) -> Reply {
        reply(&self.record)
    }
}

fn of_kind(name: &str, records: Vec<Vec<u8>>) -> Vec<Entry> {
    records.into_iter().map(|r| Entry::new(name, r)).collect()
}

/// The same at every call.
pub fn list() -> Vec<Entry> {
    [
        hand::all(),
        roots::all(),
        pivots::all(),
        fields::all(),
        shape::all(),
        entries::all(),
        steps::all(),
        ties::all(),
        sides::all(),
        generated::all(),
        numbered::all(),
    ]
    .concat()
}

/// The record and its answer, each after its length in two bytes, the low byte first.
pub fn framed(record: &[u8], answer: &[u8]) -> Vec<u8> {
    let part = |bytes: &[u8]| {
        let length = u16::try_from(bytes.len()).expect("a length has two bytes");
        [&length.to_le_bytes(), bytes].concat()
    };
    [part(record), part(answer)].concat()
}

#[cfg(test)]
mod tests;
