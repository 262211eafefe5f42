//! Documents 01's and 02's records: the answer record to any bytes. Written apart from the port.

mod checks;

pub use checks::{
    checked, doubles, Input, Refusal, DUE, MALFORMED, NUMBERED_DUE, NUMBERS_LENGTH,
    NUMBER_REPEATED, PAST_END, TAG_NOT_DUE,
};

use crate::second::{judged, Judged};
use crate::{watched, Answer, Watched, COMPLETE, NOT_FINITE};

/// Bytes of the longest matrix record: of 48 rows, with numbers.
pub const LONGEST: usize = 18_638;
pub const MAX_N: u8 = 48;

const NONE: u8 = 0xff;

/// What is answered to a record.
#[derive(Clone, Debug, PartialEq)]
pub struct Reply {
    /// The method and n of a record that passes checks 1, 10 and 11.
    pub header: Option<(u8, u8)>,
    pub outcome: Result<Answer, Refusal>,
    pub tied: Option<usize>,
    pub phase_two: Option<usize>,
}

/// Tag, length with its low byte first, content.
pub fn field(tag: u8, content: &[u8]) -> Vec<u8> {
    let length = u16::try_from(content.len()).expect("a length has two bytes");
    let mut out = vec![tag];
    out.extend(length.to_le_bytes());
    out.extend(content);
    out
}

pub fn bytes(entries: &[f64]) -> Vec<u8> {
    entries.iter().flat_map(|x| x.to_le_bytes()).collect()
}

pub fn matrix_record(method: u8, n: u8, entries: &[f64]) -> Vec<u8> {
    sized_record(&[n], &[method], &bytes(entries))
}

/// The fields due, of any lengths.
pub fn sized_record(n: &[u8], method: &[u8], entries: &[u8]) -> Vec<u8> {
    of_fields(&DUE, &[n, method, entries])
}

/// Four bytes each, the low byte first.
pub fn number_bytes(numbers: &[u32]) -> Vec<u8> {
    let each = numbers.iter();
    each.flat_map(|number| number.to_le_bytes()).collect()
}

pub fn numbered_record(method: u8, n: u8, numbers: &[u32], entries: &[f64]) -> Vec<u8> {
    sized_numbered_record(&[n], &[method], &number_bytes(numbers), &bytes(entries))
}

/// The same with field 04.
pub fn sized_numbered_record(n: &[u8], method: &[u8], numbers: &[u8], entries: &[u8]) -> Vec<u8> {
    of_fields(&NUMBERED_DUE, &[n, method, numbers, entries])
}

/// A field for each tag.
pub fn of_fields(tags: &[u8], contents: &[&[u8]]) -> Vec<u8> {
    let fields = tags.iter().zip(contents);
    fields
        .flat_map(|(tag, content)| field(*tag, content))
        .collect()
}

pub fn reply(record: &[u8]) -> Reply {
    match checked(record) {
        Ok(input) => run(&input),
        Err(refusal) => Reply {
            header: checks::fields(record).ok().map(|f| (f.method, f.n)),
            outcome: Err(refusal),
            tied: None,
            phase_two: None,
        },
    }
}

/// Without numbers the Rust is asked too.
fn run(input: &Input) -> Reply {
    let (method, n, matrix) = (input.method, usize::from(input.n), &input.matrix);
    let second = judged(method, n, matrix, input.numbers.as_deref());
    let answer = match input.numbers {
        None => agreed(watched(method, n, matrix), second),
        Some(_) => second.answer,
    };
    replied((method, input.n), answer)
}

/// The Rust's answer or, where it can't be asked, the second implementation's. Whether it can, and how many roots
/// are inexact, both say and must agree.
fn agreed(rust: Watched, second: Judged) -> Answer {
    let (x, y) = (rust.not_positive, second.not_positive);
    assert_eq!(x, y, "pivots at or below zero");
    match rust.asked() {
        None => second.answer,
        Some(answer) => {
            assert_eq!(answer.inexact, second.answer.inexact, "inexact roots");
            answer
        }
    }
}

/// What is answered where a run comes to `answer`.
pub fn replied(header: (u8, u8), answer: Answer) -> Reply {
    let (tied, phase_two) = (answer.tied, answer.phase_two);
    let outcome = match answer.refusal {
        COMPLETE => Ok(answer),
        NOT_FINITE => Err(Refusal {
            number: NOT_FINITE,
            place: [byte(answer.step), 0],
        }),
        other => panic!("no answer of document 01: {other}"),
    };
    Reply {
        header: Some(header),
        outcome,
        tied,
        phase_two,
    }
}

impl Reply {
    /// 0 for a complete run.
    pub fn refusal(&self) -> u8 {
        self.outcome.as_ref().err().map_or(COMPLETE, |r| r.number)
    }

    /// How many roots on the diagonal are; 0 beside a refusal.
    pub fn inexact(&self) -> usize {
        self.outcome.as_ref().map_or(0, |answer| answer.inexact)
    }

    pub fn record(&self) -> Vec<u8> {
        let mark = |step: Option<usize>| step.map_or(NONE, byte);
        let mut out = [
            field(0x11, &[self.refusal()]),
            field(0x12, &[mark(self.tied)]),
            field(0x13, &[mark(self.phase_two)]),
        ]
        .concat();
        match &self.outcome {
            Ok(answer) => out.extend(complete(answer)),
            Err(refusal) => out.extend(field(0x17, &refusal.place)),
        }
        out
    }
}

/// What a complete answer has after its marks.
fn complete(answer: &Answer) -> Vec<u8> {
    let p: Vec<u8> = answer.p.iter().map(|&row| byte(row)).collect();
    [
        field(0x18, &[byte(answer.inexact)]),
        field(0x14, &p),
        field(0x15, &bytes(&answer.e)),
        field(0x16, &bytes(&answer.l)),
    ]
    .concat()
}

fn byte(step: usize) -> u8 {
    u8::try_from(step).expect("rows, steps and counts are below 48, or 48")
}
