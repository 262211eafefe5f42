use crate::ffi;
use std::error::Error;
use std::fmt;

/// Why a call was refused, by number. Only a record is refused 1, 10 and 11: 1 where it is too long, then
/// 10 or 11 of its first offending field, then 1 for the rest, then 2 and so on in checking order. 12 and 13
/// come after 4 and before 5, where there are contract numbers; 14 comes after 5 and 15 after 7, in solving.
#[derive(Clone, Copy, Debug, PartialEq, Eq)]
pub enum Refusal {
    /// A record that is too long, or has a wrong length of field 01 or 02, or bytes after the last field.
    MalformedRecord,
    UnknownMethod,
    /// n is 0 or above 48, or a search is over nothing.
    SizeOutOfRange,
    /// A matrix without n * n entries.
    MatrixLength,
    /// A lent buffer of another length than its own.
    BufferLength,
    /// The first index not below n, by its position among those given; in solving also one that came before.
    IndexOutOfRange {
        position: usize,
    },
    /// The first entry that is infinite or NaN; in a list, position and 0.
    NotFinite {
        row: usize,
        column: usize,
    },
    /// The first entry above the diagonal whose mirror has other bits.
    Unsymmetric {
        row: usize,
        column: usize,
    },
    /// The first step that stored an infinity or NaN.
    StoredNotFinite {
        step: usize,
    },
    /// The header or content of the record's field, from 0, runs past the end.
    FieldPastEnd {
        field: usize,
    },
    /// The record's field, from 0, has this tag, which isn't due.
    TagNotDue {
        field: usize,
        tag: u8,
    },
    /// Not n contract numbers; in a record not four bytes for each.
    NumbersLength,
    /// The first contract number that came before, by its position.
    NumberRepeated {
        position: usize,
    },
    /// A pivot order or a right side without n elements.
    ListLength,
    /// The first row of L whose diagonal entry is zero, of either sign.
    ZeroDiagonal {
        row: usize,
    },
}

/// The tags due at a field of a matrix record, from 0: before the entries contract numbers may stand.
fn tags_due(field: usize) -> &'static str {
    match field {
        0 => "01",
        1 => "02",
        2 => "03 or 04",
        _ => "03",
    }
}

impl Refusal {
    /// From 1 to 15.
    pub fn number(self) -> usize {
        match self {
            Refusal::MalformedRecord => 1,
            Refusal::UnknownMethod => 2,
            Refusal::SizeOutOfRange => 3,
            Refusal::MatrixLength => 4,
            Refusal::BufferLength => 5,
            Refusal::IndexOutOfRange { .. } => 6,
            Refusal::NotFinite { .. } => 7,
            Refusal::Unsymmetric { .. } => 8,
            Refusal::StoredNotFinite { .. } => 9,
            Refusal::FieldPastEnd { .. } => 10,
            Refusal::TagNotDue { .. } => 11,
            Refusal::NumbersLength => 12,
            Refusal::NumberRepeated { .. } => 13,
            Refusal::ListLength => 14,
            Refusal::ZeroDiagonal { .. } => 15,
        }
    }

    /// Row and column, or position, step or field and 0; 0 and 0 where no place is named.
    pub fn place(self) -> (usize, usize) {
        match self {
            Refusal::IndexOutOfRange { position } => (position, 0),
            Refusal::NotFinite { row, column } => (row, column),
            Refusal::Unsymmetric { row, column } => (row, column),
            Refusal::StoredNotFinite { step } => (step, 0),
            Refusal::FieldPastEnd { field } => (field, 0),
            Refusal::TagNotDue { field, .. } => (field, 0),
            Refusal::NumberRepeated { position } => (position, 0),
            Refusal::ZeroDiagonal { row } => (row, 0),
            _ => (0, 0),
        }
    }
}

impl fmt::Display for Refusal {
    fn fmt(&self, f: &mut fmt::Formatter<'_>) -> fmt::Result {
        write!(f, "refusal {}: ", self.number())?;
        match *self {
            Refusal::MalformedRecord => write!(
                f,
                "the record is too long, or n or method is not one byte long, or bytes follow the last field"
            ),
            Refusal::UnknownMethod => write!(f, "the method is unknown"),
            Refusal::SizeOutOfRange => write!(f, "the size is out of range"),
            Refusal::MatrixLength => write!(f, "the matrix has a wrong length"),
            Refusal::BufferLength => write!(f, "a buffer has a wrong length"),
            Refusal::IndexOutOfRange { position } => {
                write!(f, "the index at position {position} is out of range")
            }
            Refusal::NotFinite { row, column } => {
                write!(f, "the entry at row {row}, column {column} is not finite")
            }
            Refusal::Unsymmetric { row, column } => {
                write!(f, "the matrix is unsymmetric at row {row}, column {column}")
            }
            Refusal::StoredNotFinite { step } => {
                write!(f, "step {step} stored a value that is not finite")
            }
            Refusal::FieldPastEnd { field } => {
                write!(f, "the transfer was cut in field {field}")
            }
            Refusal::TagNotDue { field, tag } => {
                let due = tags_due(field);
                write!(f, "field {field} has tag {tag:02X}, {due} was due")
            }
            Refusal::NumbersLength => write!(f, "not exactly one contract number for each row"),
            Refusal::NumberRepeated { position } => {
                write!(f, "row {position} has the contract number of an earlier row")
            }
            Refusal::ListLength => write!(f, "the pivot order or the right side has a wrong length"),
            Refusal::ZeroDiagonal { row } => write!(f, "the diagonal of L is zero at row {row}"),
        }
    }
}

impl Error for Refusal {}

/// What the archive says of how a call ended, but for 10 and 11, which only a record is refused.
pub(crate) fn ended(r: ffi::Refusal) -> Result<(), Refusal> {
    let (row, column) = (r.row, r.column);
    Err(match r.number {
        0 => return Ok(()),
        1 => Refusal::MalformedRecord,
        2 => Refusal::UnknownMethod,
        3 => Refusal::SizeOutOfRange,
        4 => Refusal::MatrixLength,
        5 => Refusal::BufferLength,
        6 => Refusal::IndexOutOfRange { position: row },
        7 => Refusal::NotFinite { row, column },
        8 => Refusal::Unsymmetric { row, column },
        9 => Refusal::StoredNotFinite { step: row },
        12 => Refusal::NumbersLength,
        13 => Refusal::NumberRepeated { position: row },
        14 => Refusal::ListLength,
        15 => Refusal::ZeroDiagonal { row },
        number => unreachable!("no refusal has the number {number}"),
    })
}
