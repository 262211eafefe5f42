//! Records and answers byte by byte.

use oracle::record::{
    field, matrix_record, numbered_record, reply, sized_numbered_record, sized_record, LONGEST,
};
use oracle::replay::framed;
use oracle::{GMW81, SE90, SE99};

const EXAMPLE: &str = "01 01 00 01 02 01 00 01 03 08 00 00 00 00 00 00 00 10 40";

fn answer(record: &[u8]) -> Vec<u8> {
    reply(record).record()
}

fn bytes(hexadecimal: &str) -> Vec<u8> {
    let digits = |word: &str| u8::from_str_radix(word, 16).unwrap();
    hexadecimal.split_whitespace().map(digits).collect()
}

#[test]
fn the_example() {
    let record = matrix_record(GMW81, 1, &[4.0]);
    assert_eq!(record, bytes(EXAMPLE));
    let wanted = "11 01 00 00 12 01 00 FF 13 01 00 FF 18 01 00 00 14 01 00 00 \
                  15 08 00 00 00 00 00 00 00 00 00 16 08 00 00 00 00 00 00 00 00 40";
    assert_eq!(answer(&record), bytes(wanted));
}

#[test]
fn lengths_at_48() {
    let record = matrix_record(SE99, 48, &[1.0; 48 * 48]);
    assert_eq!(record.len(), 18_443);
    assert_eq!(answer(&record).len(), 18_889);
    let numbers: Vec<u32> = (0..48).collect();
    let record = numbered_record(SE99, 48, &numbers, &[1.0; 48 * 48]);
    assert_eq!((record.len(), LONGEST), (18_638, 18_638));
    assert_eq!(answer(&record).len(), 18_889);
}

#[test]
fn a_refusal_has_only_its_place() {
    let wanted = "11 01 00 04 12 01 00 FF 13 01 00 FF 17 02 00 00 00";
    assert_eq!(answer(&matrix_record(GMW81, 2, &[4.0])), bytes(wanted));
    let wanted = "11 01 00 0A 12 01 00 FF 13 01 00 FF 17 02 00 00 00";
    assert_eq!(answer(&[]), bytes(wanted));
    let wanted = "11 01 00 0B 12 01 00 FF 13 01 00 FF 17 02 00 01 00";
    assert_eq!(answer(&bytes("01 01 00 01 03 00 00")), bytes(wanted));
}

/// The number and the place.
fn refusal(record: &[u8]) -> (u8, [u8; 2]) {
    let refusal = reply(record).outcome.unwrap_err();
    (refusal.number, refusal.place)
}

#[test]
fn a_cut_is_10_at_the_field_it_is_in() {
    let example = bytes(EXAMPLE);
    for end in 0..example.len() {
        let field = match end {
            0..4 => 0,
            4..8 => 1,
            _ => 2,
        };
        assert_eq!(refusal(&example[..end]), (10, [field, 0]), "{end}");
    }
}

#[test]
fn a_wrong_tag_is_11_at_its_field_unless_its_field_is_cut() {
    for (field, start) in [(0, 0), (1, 4), (2, 8)] {
        let mut record = bytes(EXAMPLE);
        record[start] = 0x07;
        assert_eq!(refusal(&record), (11, [field, 0]));
        let after = [4, 8, 19][usize::from(field)];
        assert_eq!(refusal(&record[..after]), (11, [field, 0]));
        for end in start + 1..after {
            assert_eq!(refusal(&record[..end]), (10, [field, 0]));
        }
    }
}

/// Each record by its number and field.
fn refused(given: &[(&str, (u8, u8))]) {
    for &(record, (number, field)) in given {
        assert_eq!(refusal(&bytes(record)), (number, [field, 0]), "{record}");
    }
}

#[test]
fn the_first_offending_field_decides() {
    refused(&[
        ("07 01 00 01 02 01 00", (11, 0)),
        ("01 01 00 01 07 01 00 01 03", (11, 1)),
        ("02 01 00 01 01 01 00 01", (11, 0)),
        ("01 FF 00 01 07 01 00 01 03 00 00", (10, 0)),
        ("01 01 00 01 02 FF FF 01 07 00 00", (10, 1)),
    ]);
}

#[test]
fn lengths_and_bytes_after_are_judged_after_the_fields() {
    refused(&[
        ("01 00 00 02 01 00 01 03 00 00", (1, 0)),
        ("01 02 00 01 01 02 01 00 01 03 00 00", (1, 0)),
        ("01 01 00 01 02 00 00 03 00 00", (1, 0)),
        ("01 01 00 01 02 02 00 01 01 03 00 00", (1, 0)),
        ("01 01 00 01 02 01 00 01 03 00 00 04", (1, 0)),
        ("01 00 00 07 01 00 01 03 00 00", (11, 1)),
        ("01 00 00 02 01 00 01 05 00 00", (11, 2)),
        ("01 00 00 02 01 00", (10, 1)),
        ("01 00 00 02 01 00 01 03 01 00", (10, 2)),
        ("01 01 00 01 02 02 00 01 01 03 00", (10, 2)),
        ("01 01 00 01 02 02 00 01 01 05 00 00", (11, 2)),
        ("01 00 00 02 00 00 03 00 00 03", (1, 0)),
    ]);
}

#[test]
fn a_refused_run_keeps_its_marks() {
    let zeros = |method: u8| answer(&matrix_record(method, 2, &[0.0; 4]));
    let wanted = "11 01 00 09 12 01 00 00 13 01 00 FF 17 02 00 00 00";
    assert_eq!(zeros(SE99), bytes(wanted));
    let wanted = "11 01 00 09 12 01 00 00 13 01 00 00 17 02 00 00 00";
    assert_eq!(zeros(SE90), bytes(wanted));
    let unit = f64::from_bits(1);
    let mut diagonal = [0.0; 16];
    (diagonal[0], diagonal[15]) = (2.0 * unit, -unit);
    let wanted = "11 01 00 09 12 01 00 FF 13 01 00 00 17 02 00 01 00";
    assert_eq!(answer(&matrix_record(SE90, 4, &diagonal)), bytes(wanted));
}

#[test]
fn se90_of_a_negative_entry() {
    let wanted = "11 01 00 00 12 01 00 FF 13 01 00 00 18 01 00 01 14 01 00 00 \
                  15 08 00 65 2E 82 59 06 00 10 40 16 08 00 3F 11 8F F9 A6 28 74 3F";
    assert_eq!(answer(&matrix_record(SE90, 1, &[-4.0])), bytes(wanted));
}

#[test]
fn two_rows_by_rows() {
    let record = matrix_record(GMW81, 2, &[2.0, 2.0, 2.0, 4.0]);
    let wanted = "11 01 00 00 12 01 00 FF 13 01 00 FF 18 01 00 00 14 02 00 01 00 \
                  15 10 00 00 00 00 00 00 00 00 00 00 00 00 00 00 00 00 00 \
                  16 20 00 00 00 00 00 00 00 00 40 00 00 00 00 00 00 00 00 \
                  00 00 00 00 00 00 F0 3F 00 00 00 00 00 00 F0 3F";
    assert_eq!(answer(&record), bytes(wanted));
}

#[test]
fn lengths_have_their_low_byte_first() {
    assert_eq!(field(0x15, &[7; 0x0120])[..4], [0x15, 0x20, 0x01, 7]);
    assert_eq!(framed(&[1, 2, 3], &[4]), [3, 0, 1, 2, 3, 1, 0, 4]);
    assert_eq!(framed(&[9; 0x0120], &[])[..3], [0x20, 0x01, 9]);
}

/// Of the diagonal 1, 1, 3: by number the second pivot is contract 0, which the first swap put last.
#[test]
fn a_tie_by_number() {
    let diagonal = [1.0, 0.0, 0.0, 0.0, 1.0, 0.0, 0.0, 0.0, 3.0];
    let record = numbered_record(GMW81, 3, &[0, 1, 0x0102_0304], &diagonal);
    let start = "01 01 00 03 02 01 00 01 04 0C 00 00 00 00 00 01 00 00 00 04 03 02 01 03 48 00";
    assert_eq!(record[..26], bytes(start));
    assert_eq!(answer(&record)[16..22], bytes("14 03 00 02 00 01"));
    let without = answer(&matrix_record(GMW81, 3, &diagonal));
    assert_eq!(without[16..22], bytes("14 03 00 02 01 00"));
    assert_eq!(answer(&record)[..16], without[..16]);
    // One root of three is inexact, that of 3.
    assert_eq!(without[12..16], bytes("18 01 00 01"));
}

#[test]
fn fields_of_a_numbered_record() {
    refused(&[
        ("01 01 00 01 02 01 00 01 04", (10, 2)),
        ("01 01 00 01 02 01 00 01 04 04 00 00 00 00", (10, 2)),
        ("01 01 00 01 02 01 00 01 04 00 00", (10, 3)),
        ("01 01 00 01 02 01 00 01 04 00 00 04 00 00", (11, 3)),
        ("01 01 00 01 02 01 00 01 04 00 00 05 00 00", (11, 3)),
        ("01 01 00 01 02 01 00 01 05 00 00 03 00 00", (11, 2)),
        ("04 00 00 01 01 00 01 02 01 00 01 03 00 00", (11, 0)),
        ("01 01 00 01 04 00 00 02 01 00 01 03 00 00", (11, 1)),
        ("01 01 00 01 02 01 00 01 03 00 00 04 00 00", (1, 0)),
        ("01 01 00 01 02 01 00 01 04 00 00 03 00 00 00", (1, 0)),
        ("01 00 00 02 01 00 01 04 00 00 03 00 00", (1, 0)),
        ("01 00 00 02 01 00 01 04 00 00 04 00 00", (11, 3)),
    ]);
}

#[test]
fn numbers_are_checked_after_4_and_before_7() {
    let nan = f64::NAN.to_le_bytes();
    let one = |numbers: &[u8], entries: &[u8]| {
        refusal(&sized_numbered_record(&[1], &[GMW81], numbers, entries))
    };
    assert_eq!(one(&[], &nan[1..]), (4, [0, 0]));
    for length in [0, 3, 5, 8] {
        assert_eq!(one(&vec![0; length], &nan), (12, [0, 0]));
    }
    assert_eq!(one(&[0; 4], &nan), (7, [0, 0]));
    let repeated = |numbers: &[u32]| {
        let n = numbers.len();
        refusal(&numbered_record(
            SE90,
            n as u8,
            numbers,
            &vec![f64::NAN; n * n],
        ))
    };
    assert_eq!(repeated(&[5, 5]), (13, [1, 0]));
    assert_eq!(repeated(&[1, 2, 3, 2, 1]), (13, [3, 0]));
    assert_eq!(repeated(&[1, 2, 2, 1]), (13, [2, 0]));
    assert_eq!(repeated(&[1, 2, 3, 1]), (13, [3, 0]));
    assert_eq!(repeated(&[0, 1 << 24, 1 << 16, 1 << 8]), (7, [0, 0]));
}

#[test]
fn one_byte_more_than_the_longest() {
    let content = vec![0; LONGEST - 10];
    let record = sized_record(&[48], &[GMW81], &content);
    assert_eq!((record.len(), refusal(&record)), (18_639, (1, [0, 0])));
    let shorter = sized_record(&[48], &[GMW81], &content[1..]);
    assert_eq!((shorter.len(), refusal(&shorter)), (18_638, (4, [0, 0])));
    let numbered = sized_numbered_record(&[48], &[GMW81], &[0; 193], &content[..18_432]);
    assert_eq!((numbered.len(), refusal(&numbered)), (18_639, (1, [0, 0])));
}

#[test]
fn too_long_comes_before_10_and_11() {
    let zeros = vec![0; LONGEST + 1];
    assert_eq!(refusal(&zeros), (1, [0, 0]));
    assert_eq!(refusal(&zeros[1..]), (11, [0, 0]));
    let cut = [&bytes("01 FF FF")[..], &zeros[3..]].concat();
    assert_eq!(refusal(&cut), (1, [0, 0]));
    assert_eq!(refusal(&cut[..LONGEST]), (10, [0, 0]));
}
