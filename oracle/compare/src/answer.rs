//! An answer record, read.

#[derive(Clone, Debug, PartialEq)]
pub struct Answer {
    pub refusal: u8,
    pub tied: u8,
    pub phase_two: u8,
    /// 0 in a refusal.
    pub inexact: u8,
    /// Empty in a refusal, as are e and L, which stand by their bits.
    pub p: Vec<usize>,
    pub e: Vec<u64>,
    pub l: Vec<u64>,
    /// Empty in a complete run.
    pub place: Vec<u8>,
}

pub const NONE: u8 = 0xff;

/// Nothing if the bytes are no answer record.
pub fn read(bytes: &[u8]) -> Option<Answer> {
    let fields = fields(bytes)?;
    let mut answer = match fields[..] {
        [(0x11, [refusal]), (0x12, [tied]), (0x13, [phase_two]), ..] => Answer {
            refusal: *refusal,
            tied: *tied,
            phase_two: *phase_two,
            inexact: 0,
            p: vec![],
            e: vec![],
            l: vec![],
            place: vec![],
        },
        _ => return None,
    };
    match fields[3..] {
        [(0x18, [inexact]), (0x14, p), (0x15, e), (0x16, l)] => {
            answer.inexact = *inexact;
            answer.p = p.iter().map(|&row| row.into()).collect();
            answer.e = words(e);
            answer.l = words(l);
        }
        [(0x17, place)] => answer.place = place.to_vec(),
        _ => return None,
    }
    Some(answer)
}

fn fields(mut bytes: &[u8]) -> Option<Vec<(u8, &[u8])>> {
    let mut out = Vec::new();
    while let [tag, low, high, rest @ ..] = bytes {
        let (content, after) = rest.split_at_checked(u16::from_le_bytes([*low, *high]).into())?;
        out.push((*tag, content));
        bytes = after;
    }
    bytes.is_empty().then_some(out)
}

fn words(content: &[u8]) -> Vec<u64> {
    content
        .chunks_exact(8)
        .map(|chunk| u64::from_le_bytes(chunk.try_into().expect("chunks have 8 bytes")))
        .collect()
}

/// Where two records first differ, and in which field of the second.
pub fn difference(port: &[u8], oracle: &[u8]) -> Option<String> {
    if port == oracle {
        return None;
    }
    let same = |(x, y): (&u8, &u8)| x == y;
    let at = port
        .iter()
        .zip(oracle)
        .take_while(|&pair| same(pair))
        .count();
    let shown = |bytes: &[u8]| {
        bytes
            .get(at)
            .map_or("nothing".into(), |b| format!("{b:02x}"))
    };
    Some(format!(
        "byte {at}, field {:02x}: port {}, oracle {}; port {}, oracle {}",
        tag_at(oracle, at),
        shown(port),
        shown(oracle),
        head(port),
        head(oracle)
    ))
}

/// The tag of the field that has byte `at`, 0 after the last.
fn tag_at(record: &[u8], at: usize) -> u8 {
    let mut end = 0;
    for (tag, content) in fields(record).unwrap_or_default() {
        end += 3 + content.len();
        if at < end {
            return tag;
        }
    }
    0
}

/// Refusal, tied step, phase-two step, inexact roots and place.
fn head(record: &[u8]) -> String {
    match read(record) {
        Some(a) => format!(
            "refusal {} at {:?} tied {} phase two {} inexact {}",
            a.refusal, a.place, a.tied, a.phase_two, a.inexact
        ),
        None => format!("no answer record ({} bytes)", record.len()),
    }
}

#[cfg(test)]
mod tests {
    use super::*;

    const COMPLETE: [u8; 38] = [
        0x11, 1, 0, 0, 0x12, 1, 0, 0xff, 0x13, 1, 0, 0xff, 0x18, 1, 0, 1, 0x14, 1, 0, 0, 0x15, 8,
        0, 0, 0, 0, 0, 0, 0, 0, 0, 0x16, 8, 0, 0, 0, 0, 0,
    ];

    #[test]
    fn cut_records_are_not_read() {
        let whole = [&COMPLETE[..], &[0, 0, 0, 0x40]].concat();
        let answer = read(&whole).unwrap();
        assert_eq!((answer.refusal, answer.tied, answer.inexact), (0, NONE, 1));
        assert_eq!((answer.p, answer.l), (vec![0], vec![0x4000_0000_0000_0000]));
        assert!((0..whole.len()).all(|len| read(&whole[..len]).is_none()));
        let without_18 = [&whole[..12], &whole[16..]].concat();
        assert_eq!(read(&without_18), None);
    }

    #[test]
    fn a_difference_names_byte_and_field() {
        let other = [&COMPLETE[..7], &[0], &COMPLETE[8..]].concat();
        assert_eq!(difference(&COMPLETE, &COMPLETE), None);
        let words = difference(&other, &COMPLETE).unwrap();
        assert!(words.starts_with("byte 7, field 00: port 00, oracle ff"));
        let whole = |bytes: &[u8]| [bytes, &[0, 0, 0, 0x40]].concat();
        let words = difference(&whole(&other), &whole(&COMPLETE)).unwrap();
        assert!(words.starts_with("byte 7, field 12: port 00, oracle ff"));
    }
}
