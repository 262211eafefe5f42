//! How many roots of a run's diagonal rounding changed: by the Rust, watched, where it can be asked, and by the second
//! implementation.

use oracle::generate::cases;
use oracle::generate::rng::Rng;
use oracle::operands::square;
use oracle::record::{matrix_record, reply};
use oracle::roots::*;
use oracle::{asked, is_inexact, second, Answer, COMPLETE, GMW81, NOT_FINITE, SE90, SE99};
use std::collections::BTreeSet;

/// Both have the same count.
fn answered(method: u8, a: &[f64]) -> Answer {
    let n = a.len().isqrt();
    let second = second::factor(method, n, a, None);
    match asked(method, n, a) {
        None => second,
        Some(rust) => {
            assert_eq!(rust.inexact, second.inexact);
            rust
        }
    }
}

fn inexact(method: u8, a: &[f64]) -> usize {
    let answer = answered(method, a);
    assert_eq!(answer.refusal, COMPLETE);
    answer.inexact
}

#[test]
fn diagonal_matrices() {
    for method in GMW81..=SE99 {
        assert_eq!(inexact(method, &[4.0]), 0);
        assert_eq!(inexact(method, &[2.0]), 1);
        assert_eq!(inexact(method, &[f64::MAX]), 1);
        for n in [1, 2, 3, 48] {
            assert_eq!(inexact(method, &diagonal(&vec![1.0; n])), 0);
            assert_eq!(inexact(method, &diagonal(&vec![2.0; n])), n);
        }
        assert_eq!(inexact(method, &diagonal(&[4.0, 3.0, 2.0, 1.0])), 2);
    }
}

/// The root of 0.0 and of -0.0 is exact. SE90 takes that of 0.0 alone, GMW81 that of 2^-52 instead.
#[test]
fn zeros() {
    for zero in [0.0, -0.0] {
        for (method, root) in [(SE90, 0.0), (SE99, zero)] {
            let answer = answered(method, &[zero]);
            assert_eq!((answer.refusal, answer.inexact), (COMPLETE, 0));
            assert_eq!(answer.l[0].to_bits(), f64::to_bits(root));
        }
    }
    assert_eq!(inexact(GMW81, &[0.0]), 0);
    assert_eq!(inexact(GMW81, &diagonal(&[0.0, -0.0])), 0);
}

#[test]
fn subnormal_operands() {
    let unit = f64::from_bits(1);
    for method in [SE90, SE99] {
        assert_eq!(inexact(method, &[unit]), 0);
        assert_eq!(inexact(method, &[2.0 * unit]), 1);
        assert_eq!(inexact(method, &[9.0 * unit]), 0);
        assert_eq!(inexact(method, &[15.0 * unit]), 1);
    }
}

#[test]
fn the_roots_of_beta() {
    let answer = answered(GMW81, &beta());
    let l = [answer.l[0], answer.l[5], answer.l[10], answer.l[15]];
    assert_eq!((l, answer.inexact), ([4.0, 1.0, 1.0, 1.0], 0));
    // The root of 3 alone is.
    assert_eq!(inexact(GMW81, &[4.0, 2.0, 2.0, 2.0]), 0);
}

/// L's diagonal and the count, where phase two begins at step 0.
fn in_phase_two(a: [f64; 9]) -> ([f64; 3], usize) {
    let answers = [SE90, SE99].map(|method| answered(method, &a));
    let [se90, se99] = answers.map(|answer| {
        assert_eq!((answer.refusal, answer.phase_two), (COMPLETE, Some(0)));
        ([0, 4, 8].map(|k| answer.l[k]), answer.inexact)
    });
    assert_eq!(se90, se99);
    se90
}

#[test]
fn each_root_of_phase_two() {
    assert_eq!(in_phase_two(STEP), ([8f64.sqrt(), 1.0, 1.0], 1));
    assert_eq!(in_phase_two(BLOCK_FIRST), ([2.0, 2f64.sqrt(), 1.0], 1));
    assert_eq!(in_phase_two(BLOCK_SECOND), ([2.0, 2.0, 0.75f64.sqrt()], 1));
    for method in [SE90, SE99] {
        assert_eq!(inexact(method, &[1.0, 2.0, 2.0, -1.0]), 2);
    }
}

#[test]
fn the_root_of_the_eigenvalues() {
    assert!(is_inexact(1.25));
    assert_eq!(in_phase_two(EIGENVALUES), ([2.0, 1.0, 1.0], 0));
}

#[test]
fn a_single_last_row() {
    let last = |method: u8, a: &[f64]| {
        let answer = answered(method, a);
        assert_eq!((answer.refusal, answer.phase_two), (COMPLETE, Some(1)));
        (answer.l[3], answer.inexact)
    };
    assert!(is_inexact(second::TAU) && is_inexact(last_row()[0]));
    assert_eq!(last(SE99, &diagonal(&[1.0, 0.0])), (second::TAU.sqrt(), 1));
    assert_eq!(last(SE99, &last_row()), (LAST_ROOT, 1));
    assert_eq!(last(SE90, &zero_last_row()), (SMALL_LAST_ROOT, 1));
    assert!(is_inexact(zero_last_row()[0]));
    for method in [SE90, SE99] {
        assert_eq!(inexact(method, &[-4.0]), 1);
    }
}

#[test]
fn none_beside_a_refusal() {
    let unit = f64::from_bits(1);
    let zeros_left = diagonal(&[2.0 * unit, 0.0, 0.0]);
    let given: [(u8, usize, &[f64]); 4] = [
        (SE90, 0, &[-f64::MAX]),
        (SE90, 1, &zeros_left),
        (GMW81, 1, &[1.7e308, 0.0, 0.0, -1e308]),
        (SE99, 0, &[f64::MAX; 4]),
    ];
    for (method, step, a) in given {
        let answer = answered(method, a);
        assert_eq!((answer.refusal, answer.step), (NOT_FINITE, step));
        assert_eq!(answer.inexact, 0);
    }
    // Its first root was taken, and is inexact.
    assert!(is_inexact(zeros_left[0]));
}

#[test]
fn field_18_has_the_count() {
    for (values, count) in [(vec![1.0; 48], 0), (vec![3.0; 48], 48)] {
        let record = matrix_record(SE90, 48, &diagonal(&values));
        let answer = reply(&record).record();
        assert_eq!(answer[12..16], [0x18, 1, 0, count]);
        assert_eq!(answer.len(), 18_889);
    }
    let refused = reply(&matrix_record(SE90, 1, &[-f64::MAX])).record();
    assert_eq!((refused.len(), refused[12]), (17, 0x17));
}

#[test]
fn every_count_of_up_to_three_rows_occurs() {
    let mut seen = BTreeSet::new();
    for case in cases(6000, 3, 11) {
        let answer = answered(case.method, &case.matrix);
        assert!(answer.inexact <= case.n);
        assert!(answer.refusal == COMPLETE || answer.inexact == 0);
        if answer.refusal == COMPLETE {
            seen.insert((case.method, case.n, answer.inexact));
        }
    }
    for (method, n) in (GMW81..=SE99).flat_map(|m| (1..=3).map(move |n| (m, n))) {
        let all = (0..=n).all(|count| seen.contains(&(method, n, count)));
        assert!(all, "{method} {n}");
    }
}

#[test]
fn drawn_squares_are_exact() {
    let mut rng = Rng::new(1, 0);
    let drawn: Vec<f64> = (0..5000).map(|_| square(&mut rng)).collect();
    assert!(drawn.iter().all(|x| x.is_finite() && !is_inexact(*x)));
    let subnormal = drawn.iter().filter(|x| x.is_subnormal()).count();
    assert!(subnormal > 20, "{subnormal}");
}
