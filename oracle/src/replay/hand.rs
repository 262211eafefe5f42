//! Document 01's hand calculations and its example, and single entries at the ends of the range.

use super::Entry;
use crate::{GMW81, SE90, SE99};

pub fn all() -> Vec<Entry> {
    [calculations(), extremes(), zeros(), range_ends()].concat()
}

/// The first is the example record.
fn calculations() -> Vec<Entry> {
    let two: [&[f64]; 3] = [&[4., 2., 2., 2.], &[2., 2., 2., 4.], &[1., 0., 0., 1.]];
    let given: [(u8, &[f64]); 11] = [
        (GMW81, &[4.0]),
        (GMW81, &[-4.0]),
        (GMW81, &[0.0]),
        (GMW81, two[0]),
        (GMW81, two[1]),
        (GMW81, two[2]),
        (GMW81, &[f64::MAX; 4]),
        (SE90, &[-4.0]),
        (SE90, two[0]),
        (SE90, &[0.0; 4]),
        (SE99, &[-4.0]),
    ];
    given
        .iter()
        .map(|(method, matrix)| Entry::of("hand calculation", *method, matrix))
        .collect()
}

fn extremes() -> Vec<Entry> {
    let least = f64::from_bits(1);
    let sizes = [
        0.0,
        least,
        f64::MIN_POSITIVE - least,
        f64::MIN_POSITIVE,
        f64::MAX,
    ];
    let signed = sizes.iter().flat_map(|&size| [size, -size]);
    each_method("single entry", signed.map(|x| vec![x]))
}

/// Zeros of either sign, on the diagonal and beside it.
fn zeros() -> Vec<Entry> {
    let matrices = [[0.0, -0.0, -0.0, -0.0], [-0.0, 0.0, 0.0, 1.0]];
    each_method("zeros of either sign", matrices.map(Vec::from))
}

fn range_ends() -> Vec<Entry> {
    let (most, least) = (f64::MAX, f64::from_bits(1));
    let matrices = [
        [most, 0.0, 0.0, most],
        [most, least, least, -most],
        [least, least, least, least],
    ];
    each_method("ends of the range", matrices.map(Vec::from))
}

fn each_method(kind: &str, matrices: impl IntoIterator<Item = Vec<f64>>) -> Vec<Entry> {
    let one = |matrix: Vec<f64>| (GMW81..=SE99).map(move |m| Entry::of(kind, m, &matrix));
    matrices.into_iter().flat_map(one).collect()
}
