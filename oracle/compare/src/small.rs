//! Small records broken in every way that their fields can be: cut at every byte, with every tag at
//! every field, and with other lengths, alone and with a later fault. Without numbers and with.

use oracle::record::{bytes, number_bytes, of_fields, DUE, LONGEST, NUMBERED_DUE};
use oracle::{GMW81, SE90, SE99};
use std::collections::BTreeSet;
use std::ops::RangeInclusive;

const METHODS: RangeInclusive<u8> = GMW81..=SE99;
const SIZES: RangeInclusive<u8> = 1..=3;

/// How many there are, said once more: a comparison of fewer is a difference.
pub const COUNT: usize = 28_431;
pub const NUMBERED_COUNT: usize = 55_958;

/// No field's.
const OTHER_TAG: u8 = 0x07;

/// Each once.
pub fn records() -> BTreeSet<Vec<u8>> {
    let small = sizes().flat_map(|(method, n)| of_matrix(method, n));
    small.chain(around_the_longest()).collect()
}

/// Those with field 04, each once.
pub fn numbered() -> BTreeSet<Vec<u8>> {
    let small = sizes().flat_map(|(method, n)| of_numbered_matrix(method, n));
    let repeated = METHODS.flat_map(repeated_numbers);
    small
        .chain(repeated)
        .chain(orders())
        .chain(numbered_up_to_the_longest())
        .collect()
}

fn sizes() -> impl Iterator<Item = (u8, u8)> {
    METHODS.flat_map(|method| SIZES.map(move |n| (method, n)))
}

/// A record, and where its fields start.
#[derive(Clone)]
struct Sound {
    record: Vec<u8>,
    starts: Vec<usize>,
}

impl Sound {
    fn new(tags: &[u8], contents: &[&[u8]]) -> Self {
        let mut starts = Vec::new();
        let mut at = 0;
        for content in contents {
            starts.push(at);
            at += 3 + content.len();
        }
        Sound {
            record: of_fields(tags, contents),
            starts,
        }
    }

    fn with(&self, at: usize, byte: u8) -> Self {
        let mut other = self.clone();
        other.record[at] = byte;
        other
    }

    /// A wrong tag at each field.
    fn tagged(&self) -> Vec<Self> {
        let starts = self.starts.iter();
        starts.map(|&start| self.with(start, OTHER_TAG)).collect()
    }

    /// Itself and cut at every byte.
    fn cuts(&self) -> Vec<Vec<u8>> {
        let ends = 0..=self.record.len();
        ends.map(|end| self.record[..end].to_vec()).collect()
    }

    /// A wrong tag at each field, with every cut.
    fn cuts_with_tag(&self) -> Vec<Vec<u8>> {
        self.tagged().iter().flat_map(Sound::cuts).collect()
    }

    /// A wrong tag at two fields, which may be the same.
    fn two_tags(&self) -> Vec<Vec<u8>> {
        let both = self.tagged().into_iter().flat_map(|first| first.tagged());
        both.map(|sound| sound.record).collect()
    }

    fn tags(&self) -> Vec<Vec<u8>> {
        self.every_byte_at(0)
    }

    /// Either byte of each length.
    fn lengths(&self) -> Vec<Vec<u8>> {
        [self.every_byte_at(1), self.every_byte_at(2)].concat()
    }

    /// Every byte at a place of each field's header.
    fn every_byte_at(&self, place: usize) -> Vec<Vec<u8>> {
        let one = |&start: &usize| (0..=255).map(move |byte| self.with(start + place, byte).record);
        self.starts.iter().flat_map(one).collect()
    }

    /// Also beside a wrong tag.
    fn bytes_after(&self) -> Vec<Vec<u8>> {
        let after: [&[u8]; 4] = [&[0], &[0x03, 0, 0], &[0x04, 1, 0, 1], &[1; 9]];
        let tagged = self.tagged();
        let own = [self].into_iter().chain(&tagged);
        own.flat_map(|sound| after.map(|more| [&sound.record, more].concat()))
            .collect()
    }

    /// Every cut, alone and with a wrong tag, two wrong tags, and bytes after.
    fn faults(&self) -> Vec<Vec<u8>> {
        let cuts = [self.cuts(), self.cuts_with_tag()].concat();
        [cuts, self.two_tags(), self.bytes_after()].concat()
    }
}

/// 4.0 on the diagonal, else 1.0.
fn entries(n: u8) -> Vec<u8> {
    let entry = |i: u8, j: u8| if i == j { 4.0 } else { 1.0 };
    let matrix: Vec<f64> = (0..n)
        .flat_map(|i| (0..n).map(move |j| entry(i, j)))
        .collect();
    bytes(&matrix)
}

/// Contents of fields 01 and 02: sound ones, then one or both of another length.
fn first_contents(method: u8, n: u8) -> [[Vec<u8>; 2]; 6] {
    [
        [vec![n], vec![method]],
        [vec![], vec![method]],
        [vec![n, n], vec![method]],
        [vec![n], vec![]],
        [vec![n], vec![method, method]],
        [vec![], vec![]],
    ]
}

fn of_matrix(method: u8, n: u8) -> Vec<Vec<u8>> {
    let entries = entries(n);
    let sound = Sound::new(&DUE, &[&[n], &[method], &entries]);
    let own = [sound.tags(), sound.lengths()].concat();
    let sized =
        first_contents(method, n).map(|[n, method]| Sound::new(&DUE, &[&n, &method, &entries]));
    let faults = sized.map(|sound| sound.faults());
    [own, faults.concat()].concat()
}

/// Sound but for the number of entries, with a wrong first tag, and with a field past the end: of the
/// longest length and a byte longer.
fn around_the_longest() -> Vec<Vec<u8>> {
    let of_length = |length: usize| {
        let entries = vec![0; length - 11];
        let sound = Sound::new(&DUE, &[&[1], &[GMW81], &entries]);
        let cut = sound.with(sound.starts[2] + 2, 255);
        [&sound, &sound.with(0, OTHER_TAG), &cut].map(|s| s.record.clone())
    };
    [of_length(LONGEST), of_length(LONGEST + 1)].concat()
}

/// The same with numbers, also of other lengths.
fn of_numbered_matrix(method: u8, n: u8) -> Vec<Vec<u8>> {
    let entries = entries(n);
    let numbers = number_bytes(&[0x0102_0304, 7, 0][..n.into()]);
    let sound = Sound::new(&NUMBERED_DUE, &[&[n], &[method], &numbers, &entries]);
    let own = [sound.tags(), sound.lengths()].concat();
    let sized = first_contents(method, n)
        .map(|[n, method]| Sound::new(&NUMBERED_DUE, &[&n, &method, &numbers, &entries]).faults());
    let due = numbers.len();
    let lengths = [0, due - 4, due - 1, due + 1, due + 4, 2 * due];
    let other = lengths.map(|length| {
        let numbers = vec![7; length];
        Sound::new(&NUMBERED_DUE, &[&[n], &[method], &numbers, &entries]).faults()
    });
    [own, sized.concat(), other.concat()].concat()
}

/// Every list of n numbers below n, for n up to 4; the matrix sound, or its first entry not finite, or of
/// another length.
fn repeated_numbers(method: u8) -> Vec<Vec<u8>> {
    let mut out = Vec::new();
    for n in 1..=4u8 {
        let sound = entries(n);
        let not_finite = [&bytes(&[f64::NAN]), &sound[8..]].concat();
        for numbers in lists(n) {
            let numbers = number_bytes(&numbers);
            for entries in [&sound, &not_finite, &sound[8..]] {
                out.push(of_fields(
                    &NUMBERED_DUE,
                    &[&[n], &[method], &numbers, entries],
                ));
            }
        }
    }
    out
}

fn lists(n: u8) -> Vec<Vec<u32>> {
    let longer = |list: Vec<u32>| (0..n).map(move |x| [&list[..], &[x.into()]].concat());
    (0..n).fold(vec![vec![]], |lists, _| {
        lists.into_iter().flat_map(longer).collect()
    })
}

/// Field 04 first, second, last, twice; field 05 in its place or beside it; a field left out.
fn orders() -> Vec<Vec<u8>> {
    let orders: [&[u8]; 14] = [
        &[4, 1, 2, 3],
        &[1, 4, 2, 3],
        &[1, 2, 3, 4],
        &[1, 2, 4, 4, 3],
        &[1, 2, 4, 3, 4],
        &[1, 2, 4],
        &[1, 4, 3],
        &[2, 4, 3],
        &[4, 3],
        &[4],
        &[1, 2, 5, 3],
        &[1, 2, 4, 5, 3],
        &[1, 2, 5, 4, 3],
        &[1, 2, 4, 3, 5],
    ];
    let entries = entries(2);
    let content = |tag: u8| match tag {
        1 => vec![2],
        2 => vec![SE90],
        3 => entries.clone(),
        _ => number_bytes(&[9, 8]),
    };
    let one = |order: &[u8]| {
        let contents: Vec<Vec<u8>> = order.iter().map(|&tag| content(tag)).collect();
        let contents: Vec<&[u8]> = contents.iter().map(|content| &content[..]).collect();
        of_fields(order, &contents)
    };
    orders.map(one).to_vec()
}

/// Of every length from the longest without numbers to one too many: 48 rows, with a number cut or bytes
/// too many in field 04, and with other lengths of field 03.
fn numbered_up_to_the_longest() -> Vec<Vec<u8>> {
    let (rows, numbers) = (entries(48), number_bytes(&Vec::from_iter(0..48)));
    let rest = 14 + rows.len();
    let one = |length: usize| {
        let mut other = numbers.clone();
        other.resize(length.saturating_sub(rest), 0);
        let entries = vec![0; length - 14 - numbers.len()];
        let fields = |numbers: &[u8], entries: &[u8]| {
            of_fields(&NUMBERED_DUE, &[&[48], &[SE99], numbers, entries])
        };
        [fields(&other, &rows), fields(&numbers, &entries)]
    };
    (rest - 3..=LONGEST + 1).flat_map(one).collect()
}

#[cfg(test)]
mod tests {
    use super::*;
    use oracle::record::{checked, matrix_record, numbered_record, Refusal};

    fn refused(record: &[u8]) -> (u8, u8) {
        let Refusal { number, place } = checked(record).unwrap_err();
        (number, place[0])
    }

    #[test]
    fn there_are_as_many_as_said() {
        assert_eq!(records().len(), COUNT);
        assert_eq!(numbered().len(), NUMBERED_COUNT);
    }

    /// Each is looked for by itself.
    #[test]
    fn every_cut_and_every_tag_is_among_them() {
        let all = records();
        for (method, n) in [
            (1, 1),
            (2, 1),
            (3, 1),
            (1, 2),
            (2, 2),
            (3, 2),
            (1, 3),
            (2, 3),
            (3, 3),
        ] {
            let unit = |k: usize| {
                if k % (usize::from(n) + 1) == 0 {
                    4.0
                } else {
                    1.0
                }
            };
            let entries: Vec<f64> = (0..usize::from(n).pow(2)).map(unit).collect();
            let record = matrix_record(method, n, &entries);
            for end in 0..=record.len() {
                assert!(all.contains(&record[..end]));
            }
            for (start, tag) in [0, 4, 8]
                .into_iter()
                .flat_map(|s| (0..=255).map(move |t| (s, t)))
            {
                let mut tagged = record.clone();
                tagged[start] = tag;
                assert!(all.contains(&tagged));
            }
        }
    }

    /// 10 and 11 at every field; 1 too, with and without a field that offends.
    #[test]
    fn every_refusal_of_the_fields_occurs() {
        let wanted = [
            (1, 0),
            (4, 0),
            (10, 0),
            (10, 1),
            (10, 2),
            (10, 3),
            (11, 0),
            (11, 1),
            (11, 2),
        ];
        let without = BTreeSet::from(wanted);
        assert_eq!(seen(records()), without);
        let more = [(7, 0), (11, 3), (12, 0), (13, 1), (13, 2), (13, 3)];
        let with = without.into_iter().chain(more).collect();
        assert_eq!(seen(numbered()), with);
    }

    fn seen(records: BTreeSet<Vec<u8>>) -> BTreeSet<(u8, u8)> {
        let broken = records.iter().filter(|record| checked(record).is_err());
        broken.map(|record| refused(record)).collect()
    }

    #[test]
    fn every_cut_every_tag_and_every_length_of_a_numbered_one() {
        let all = numbered();
        let record = numbered_record(GMW81, 2, &[0x0102_0304, 7], &[4.0, 1.0, 1.0, 4.0]);
        for end in 0..=record.len() {
            assert!(all.contains(&record[..end]));
        }
        let starts = [0, 4, 8, 19];
        for (start, tag) in starts
            .into_iter()
            .flat_map(|s| (0..=255).map(move |t| (s, t)))
        {
            let mut tagged = record.clone();
            tagged[start] = tag;
            assert!(all.contains(&tagged));
        }
        for length in [0, 7, 9, 12] {
            let mut other = record.clone();
            other[9] = length;
            other.splice(11..19, vec![7; length.into()]);
            assert!(all.contains(&other), "{length}");
        }
        let lengths: BTreeSet<usize> = all.iter().map(Vec::len).collect();
        assert!((18_443..=18_639).all(|length| lengths.contains(&length)));
    }

    #[test]
    fn a_wrong_length_comes_with_every_later_fault() {
        let all = records();
        let one = |text: &[u8], number: u8, field: u8| {
            let record = [text, &bytes(&[4.0])].concat();
            assert!(all.contains(&record), "{record:x?}");
            assert_eq!(refused(&record), (number, field), "{record:x?}");
        };
        one(&[1, 0, 0, 2, 1, 0, 1, 3, 8, 0], 1, 0);
        one(&[1, 0, 0, 7, 1, 0, 1, 3, 8, 0], 11, 1);
        one(&[1, 2, 0, 1, 1, 2, 1, 0, 1, 7, 8, 0], 11, 2);
        one(&[1, 1, 0, 1, 2, 2, 0, 3, 3, 7, 8, 0], 11, 2);
        let cut: [&[u8]; 3] = [
            &[1, 0, 0, 2, 1, 0],
            &[1, 2, 0, 1, 1, 2, 1, 0, 1, 3, 8],
            &[1, 1, 0, 1, 2, 0, 0, 3, 8, 0, 0],
        ];
        assert_eq!(cut.map(refused), [(10, 1), (10, 2), (10, 2)]);
        assert!(cut.iter().all(|record| all.contains(*record)));
    }
}
