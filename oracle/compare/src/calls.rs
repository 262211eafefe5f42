//! Every exported call but those of records, factorizations and solving, on operands that it accepts or
//! refuses: what it hands back and leaves in its buffers, beside the listed Rust's helpers and
//! document 01's checks.

use crate::checks::{self, Checked};
use crate::port::{self, Refusal};
use oracle::generate::rng::Rng;
use oracle::operands::{any_bits, area, cut, doubles, filling, index, length, list, size, square};
use oracle::record::{bytes, Reply};
use oracle::{helpers, is_inexact};

#[derive(Clone)]
pub struct Called {
    pub call: &'static str,
    /// As it should be.
    pub refusal: usize,
    pub difference: Option<String>,
}

/// The refusal, and the bytes of what is handed back or left in buffers.
#[derive(Debug, PartialEq)]
pub struct Outcome {
    pub refusal: Refusal,
    pub left: Vec<u8>,
}

const ACCEPTED: Refusal = [0, 0, 0];

/// The oracle's refusal of a record.
pub fn refusal(reply: &Reply) -> Refusal {
    match &reply.outcome {
        Ok(_) => ACCEPTED,
        Err(refusal) => {
            let [row, column] = refusal.place.map(usize::from);
            [refusal.number.into(), row, column]
        }
    }
}

pub fn called(call: &'static str, port: Outcome, wanted: Outcome) -> Called {
    let pairs = || port.left.iter().zip(&wanted.left);
    let difference = (port != wanted).then(|| {
        let at = pairs().take_while(|(x, y)| x == y).count();
        format!(
            "{call}: refusal port {:?}, oracle {:?}; byte {at}: port {:x?}, oracle {:x?}",
            port.refusal,
            wanted.refusal,
            port.left.get(at),
            wanted.left.get(at)
        )
    });
    Called {
        call,
        refusal: wanted.refusal[0],
        difference,
    }
}

/// A call that leaves `untouched` beside a refusal.
fn outcome(result: Result<Vec<u8>, Refusal>, untouched: &[u8]) -> Outcome {
    match result {
        Ok(left) => Outcome {
            refusal: ACCEPTED,
            left,
        },
        Err(refusal) => Outcome {
            refusal,
            left: untouched.to_vec(),
        },
    }
}

/// A call that hands back a value of so many bytes, beside a refusal zero.
fn value(result: Result<Vec<u8>, Refusal>, len: usize) -> Outcome {
    outcome(result, &vec![0; len])
}

/// Each helper once.
pub fn helpers(rng: &mut Rng) -> [Called; 9] {
    [
        sqrt(rng),
        eigenvalues(rng),
        search("index_of_largest_bytes", false, rng),
        search("index_of_largest_abs_bytes", true, rng),
        swap("swap_rows_bytes", false, rng),
        swap("swap_columns_bytes", true, rng),
        permutation(rng),
        diagonal(rng),
        circles(rng),
    ]
}

/// The root, then whether it is inexact.
fn sqrt(rng: &mut Rng) -> Called {
    let x = match rng.below(3) {
        0 => square(rng),
        _ => list(1, rng)[0],
    };
    let left = |root: f64, inexact: usize| [bytes(&[root]), inexact.to_le_bytes().into()].concat();
    let checks = || {
        checks::finite_list(&[x])?;
        checks::stored_finite(&[x.sqrt()], 0)?;
        Ok(left(x.sqrt(), is_inexact(x).into()))
    };
    let (refusal, root, inexact) = port::sqrt(x);
    let port = Outcome {
        refusal,
        left: left(root, inexact),
    };
    called("sqrt", port, value(checks(), 16))
}

fn eigenvalues(rng: &mut Rng) -> Called {
    let entries = list(4, rng);
    let block = [[entries[0], entries[1]], [entries[2], entries[3]]];
    let checks = || {
        checks::finite_matrix(&entries, 2)?;
        let (hi, lo) = helpers::eigenvalues_2x2(block);
        checks::stored_finite(&[hi, lo], 0)?;
        Ok(bytes(&[hi, lo]))
    };
    let (refusal, pair) = port::eigenvalues_2x2(block);
    let port = Outcome {
        refusal,
        left: bytes(&pair),
    };
    called("eigenvalues_2x2", port, value(checks(), 16))
}

fn search(call: &'static str, by_magnitude: bool, rng: &mut Rng) -> Called {
    let len = match rng.below(16) {
        0 => 0,
        1 => 49 + rng.below(200),
        _ => 1 + rng.below(12),
    };
    let searched = cut(length(8 * len, rng), |count| list(count, rng));
    let found = |list: &[f64]| match by_magnitude {
        false => helpers::index_of_largest(list),
        true => helpers::index_of_largest_abs(list),
    };
    let checks = || {
        checks::something_to_search(&searched)?;
        checks::whole_doubles(&searched)?;
        let list = doubles(&searched);
        checks::finite_list(&list)?;
        Ok(found(&list).to_le_bytes().to_vec())
    };
    let (refusal, index) = match by_magnitude {
        false => port::index_of_largest(&searched),
        true => port::index_of_largest_abs(&searched),
    };
    let port = Outcome {
        refusal,
        left: index.to_le_bytes().to_vec(),
    };
    called(call, port, value(checks(), 8))
}

fn swap(call: &'static str, columns: bool, rng: &mut Rng) -> Called {
    let n = size(rng);
    let before = cut(length(area(n), rng), |count| any_bits(count, rng));
    let (i, j) = (index(n, rng), index(n, rng));
    let checks = || {
        checks::size(n)?;
        checks::matrix_length(&before, n)?;
        checks::indexes(&[i, j], n)?;
        let matrix = doubles(&before);
        Ok(bytes(&match columns {
            false => helpers::swap_rows(n, &matrix, i, j),
            true => helpers::swap_columns(n, &matrix, i, j),
        }))
    };
    let mut after = before.clone();
    let refusal = match columns {
        false => port::swap_rows(&mut after, n, i, j),
        true => port::swap_columns(&mut after, n, i, j),
    };
    let port = Outcome {
        refusal,
        left: after,
    };
    called(call, port, outcome(checks(), &before))
}

fn permutation(rng: &mut Rng) -> Called {
    // 257 would be 1 in a byte.
    let n = size(rng).min(257);
    let drawn = if rng.coin() {
        rng.permutation(n)
    } else {
        (0..n).map(|_| index(n, rng)).collect()
    };
    let given: Vec<u8> = drawn.into_iter().map(|i| i.min(255) as u8).collect();
    let indexes: Vec<usize> = given.iter().map(|&i| i.into()).collect();
    let before = filling(length(area(n), rng));
    let checks = || {
        checks::size(n)?;
        checks::buffer_length(&before, 8 * n * n)?;
        checks::indexes(&indexes, n)?;
        Ok(bytes(&helpers::index_to_permutation_mat(&indexes)))
    };
    let mut after = before.clone();
    let port = Outcome {
        refusal: port::index_to_permutation_mat(&given, &mut after),
        left: after,
    };
    called(
        "index_to_permutation_mat_bytes",
        port,
        outcome(checks(), &before),
    )
}

fn diagonal(rng: &mut Rng) -> Called {
    let given = cut(length(8 * size(rng).min(50), rng), |count| list(count, rng));
    let list = doubles(&given);
    let n = list.len();
    let before = filling(length(area(n), rng));
    let checks = || {
        checks::size(n)?;
        checks::whole_doubles(&given)?;
        checks::buffer_length(&before, 8 * n * n)?;
        checks::finite_list(&list)?;
        Ok(bytes(&helpers::diag_mat_from_arr(&list)))
    };
    let mut after = before.clone();
    let port = Outcome {
        refusal: port::diag_mat_from_arr(&given, &mut after),
        left: after,
    };
    called("diag_mat_from_arr_bytes", port, outcome(checks(), &before))
}

fn circles(rng: &mut Rng) -> Called {
    let n = size(rng);
    let given = cut(length(area(n), rng), |count| list(count, rng));
    let matrix = doubles(&given);
    let mut centres = filling(length(8 * n.min(50), rng));
    let mut radii = filling(length(8 * n.min(50), rng));
    let before = [&centres[..], &radii].concat();
    let checks = || -> Checked {
        checks::size(n)?;
        checks::matrix_length(&given, n)?;
        checks::buffer_length(&centres, 8 * n)?;
        checks::buffer_length(&radii, 8 * n)?;
        checks::finite_matrix(&matrix, n)
    };
    let wanted = match checks() {
        Err(refusal) => outcome(Err(refusal), &before),
        Ok(()) => match helpers::gershgorin_circles(n, &matrix) {
            Ok(circles) => {
                let (centres, radii): (Vec<f64>, Vec<f64>) = circles.into_iter().unzip();
                outcome(Ok(bytes(&[centres, radii].concat())), &before)
            }
            Err(row) => outcome(Err([9, row, 0]), &vec![0; 16 * n]),
        },
    };
    let port = Outcome {
        refusal: port::gershgorin_circles(&given, n, &mut centres, &mut radii),
        left: [centres, radii].concat(),
    };
    called("gershgorin_circles_bytes", port, wanted)
}

#[cfg(test)]
mod tests {
    use super::*;
    use std::collections::BTreeSet;

    #[test]
    fn every_refusal_of_every_helper_occurs() {
        let mut rng = Rng::new(1, 0);
        let mut seen: BTreeSet<(&str, usize)> = BTreeSet::new();
        for called in (0..1000).flat_map(|_| helpers(&mut rng)) {
            assert_eq!(called.difference, None);
            seen.insert((called.call, called.refusal));
        }
        let refusals: [(&str, &[usize]); 9] = [
            ("sqrt", &[0, 7, 9]),
            ("eigenvalues_2x2", &[0, 7, 9]),
            ("index_of_largest_bytes", &[0, 3, 4, 7]),
            ("index_of_largest_abs_bytes", &[0, 3, 4, 7]),
            ("swap_rows_bytes", &[0, 3, 4, 6]),
            ("swap_columns_bytes", &[0, 3, 4, 6]),
            ("index_to_permutation_mat_bytes", &[0, 3, 5, 6]),
            ("diag_mat_from_arr_bytes", &[0, 3, 4, 5, 7]),
            ("gershgorin_circles_bytes", &[0, 3, 4, 5, 7, 9]),
        ];
        let all = refusals
            .iter()
            .flat_map(|(call, list)| list.iter().map(|&r| (*call, r)));
        assert_eq!(seen, all.collect());
    }

    #[test]
    fn a_call_differs_by_its_refusal_or_by_one_byte() {
        let outcome = |place: usize, byte: u8| Outcome {
            refusal: [7, place, 0],
            left: vec![1, byte],
        };
        let difference = |x, y| called("sqrt", x, y).difference;
        assert_eq!(difference(outcome(1, 2), outcome(1, 2)), None);
        assert!(difference(outcome(1, 2), outcome(0, 2)).is_some());
        assert!(difference(outcome(1, 2), outcome(1, 3)).is_some());
    }
}
