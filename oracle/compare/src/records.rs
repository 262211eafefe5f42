//! The call of a record: the answer record, and what is handed back beside it.

use crate::answer::difference;
use crate::calls::{called, refusal, Called, Outcome};
use crate::port::{self, Refusal, LONGEST_ANSWER};
use oracle::generate::rng::Rng;
use oracle::operands::filling;
use oracle::record::Reply;

/// The port's answer record.
pub fn answer(record: &[u8]) -> Vec<u8> {
    let mut buffer = filling(LONGEST_ANSWER);
    let (_, length) = port::record(record, &mut buffer);
    buffer.truncate(length);
    buffer
}

/// The lengths of buffers that are refused, 5.
pub const OTHER_LENGTHS: [usize; 3] = [0, LONGEST_ANSWER - 1, LONGEST_ANSWER + 1];

/// The refusals that come before 5.
const BEFORE_BUFFER: &[usize] = &[1, 10, 11, 2, 3, 4, 12, 13];

/// On a buffer of its own length, and now and then on one of another.
pub fn calls(record: &[u8], reply: &Reply, rng: &mut Rng) -> Vec<Called> {
    let mut made = vec![own_length(record, reply)];
    if rng.below(4) == 0 {
        made.push(other_length(record, reply, rng.pick(&OTHER_LENGTHS)));
    }
    made
}

/// On a buffer of its own length and on one of `other`.
pub fn both_lengths(record: &[u8], reply: &Reply, other: usize) -> [Called; 2] {
    [
        own_length(record, reply),
        other_length(record, reply, other),
    ]
}

/// The answer record is put at the buffer's front. Refusal, place and length are also handed back.
fn own_length(record: &[u8], reply: &Reply) -> Called {
    let wanted = reply.record();
    let mut left = filling(LONGEST_ANSWER);
    left[..wanted.len()].copy_from_slice(&wanted);
    let (port, buffer) = call(record, filling(LONGEST_ANSWER));
    let called = called("record", port, outcome(refusal(reply), wanted.len(), &left));
    Called {
        // Names the field.
        difference: difference(&buffer[..wanted.len()], &wanted).or(called.difference),
        ..called
    }
}

/// The buffer stays as it is and the length is 0. An earlier refusal keeps its place.
fn other_length(record: &[u8], reply: &Reply, length: usize) -> Called {
    let lent = filling(length);
    let first = match refusal(reply) {
        earlier if BEFORE_BUFFER.contains(&earlier[0]) => earlier,
        _ => [5, 0, 0],
    };
    let (port, _) = call(record, lent.clone());
    called("record", port, outcome(first, 0, &lent))
}

/// Also the buffer as it is left.
fn call(record: &[u8], mut buffer: Vec<u8>) -> (Outcome, Vec<u8>) {
    let (refusal, length) = port::record(record, &mut buffer);
    (outcome(refusal, length, &buffer), buffer)
}

/// The length, then the buffer.
fn outcome(refusal: Refusal, length: usize, buffer: &[u8]) -> Outcome {
    Outcome {
        refusal,
        left: [&length.to_le_bytes(), buffer].concat(),
    }
}

#[cfg(test)]
mod tests {
    use super::*;
    use crate::broken;
    use oracle::record::reply;
    use std::collections::BTreeSet;

    #[test]
    fn every_refusal_of_a_record_occurs() {
        let mut rng = Rng::new(1, 0);
        let mut seen: BTreeSet<usize> = BTreeSet::new();
        for index in 0..2000 {
            let record = match index % 2 {
                0 => broken::record(&mut rng),
                _ => broken::numbered(&mut rng),
            };
            for called in calls(&record, &reply(&record), &mut rng) {
                assert_eq!(called.difference, None);
                seen.insert(called.refusal);
            }
        }
        assert!(seen.into_iter().eq((0..=5).chain(7..=13)));
    }
}
