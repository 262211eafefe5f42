use crate::ffi;
use crate::refusal::{ended, Refusal};

/// The bytes of the longest answer record.
const LONGEST_ANSWER: usize = 18889;

/// An answer record, and the refusal that it tells of.
#[derive(Clone, Debug, PartialEq, Eq)]
pub struct RecordAnswer {
    pub outcome: Result<(), Refusal>,
    pub answer: Vec<u8>,
}

/// The answer to a matrix record, any bytes. A refused record has one too.
pub fn record_answer(record: &[u8]) -> RecordAnswer {
    let mut answer = vec![0; LONGEST_ANSWER];
    let written = unsafe {
        ffi::millracer_record(
            record.as_ptr(),
            record.len(),
            answer.as_mut_ptr(),
            answer.len(),
        )
    };
    answer.truncate(written.length);
    RecordAnswer {
        outcome: record_ended(written.refusal, record),
        answer,
    }
}

fn record_ended(r: ffi::Refusal, record: &[u8]) -> Result<(), Refusal> {
    let field = r.row;
    match r.number {
        10 => Err(Refusal::FieldPastEnd { field }),
        11 => Err(Refusal::TagNotDue {
            field,
            tag: tag(record, field),
        }),
        _ => ended(r),
    }
}

/// The tag of a field that is there, the fields before it passed by their lengths.
fn tag(record: &[u8], field: usize) -> u8 {
    let mut at = 0;
    for _ in 0..field {
        at += 3 + usize::from(u16::from_le_bytes([record[at + 1], record[at + 2]]));
    }
    record[at]
}

/// The answer record to a matrix record, any bytes.
pub fn record(record: &[u8]) -> Vec<u8> {
    record_answer(record).answer
}
