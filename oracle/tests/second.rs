//! The second implementation: the Rust's bits where it can be asked, SE90's test of the pivot, and ties by number by
//! hand.

use oracle::generate::rng::Rng;
use oracle::generate::{cases, matrix, KINDS};
use oracle::second::{factor, judged, Ties};
use oracle::{watched, Answer, COMPLETE, GMW81, NOT_FINITE, SE90, SE99};

/// Equal also in the signs of zeros.
fn same(x: &Answer, y: &Answer) -> bool {
    let bits = |list: &[f64]| list.iter().map(|x| x.to_bits()).collect::<Vec<_>>();
    x == y && bits(&x.l) == bits(&y.l) && bits(&x.e) == bits(&y.e)
}

/// How the second implementation stands beside the Rust.
#[derive(Clone, Copy, PartialEq)]
enum Beside {
    Asked,
    /// SE90 met a pivot at or below zero where the Rust's own test ends phase one too: the answer is the same.
    SameEnd,
    /// The Rust goes on from such a pivot, to 9 or, at a last zero, to its root.
    GoesOn,
}

fn beside(method: u8, n: usize, a: &[f64]) -> (Beside, Answer) {
    let (rust, second) = (watched(method, n, a), judged(method, n, a, None));
    assert_eq!(rust.not_positive, second.not_positive);
    let beside = match rust.not_positive {
        None => Beside::Asked,
        met if met == rust.answer.phase_two => Beside::SameEnd,
        Some(step) => {
            goes_on(n, step, &rust.answer);
            return (Beside::GoesOn, second.answer);
        }
    };
    assert!(same(&second.answer, &rust.answer), "{method} {n} {a:?}");
    (beside, second.answer)
}

fn goes_on(n: usize, step: usize, rust: &Answer) {
    assert_eq!(rust.phase_two, None);
    match rust.refusal {
        COMPLETE => assert!(step + 1 == n && rust.l[n * n - 1] == 0.0),
        _ => assert_eq!((rust.refusal, rust.step), (NOT_FINITE, step)),
    }
}

#[test]
fn it_has_the_rusts_bits_where_the_rust_can_be_asked() {
    let found: Vec<(Beside, Answer)> = cases(6000, 12, 3)
        .chain(cases(1500, 48, 4))
        .map(|case| beside(case.method, case.n, &case.matrix))
        .collect();
    let count = |wanted: Beside, test: fn(&Answer) -> bool| {
        let own = found.iter().filter(|(beside, _)| *beside == wanted);
        own.filter(|(_, answer)| test(answer)).count()
    };
    assert!(count(Beside::Asked, |answer| answer.tied.is_some()) > 2000);
    assert!(count(Beside::Asked, |answer| answer.phase_two.is_some()) > 1500);
    assert!(count(Beside::Asked, |answer| answer.refusal == NOT_FINITE) > 1500);
    assert!(count(Beside::SameEnd, |_| true) > 100);
    assert!(count(Beside::GoesOn, |_| true) > 300);
}

#[test]
fn every_n_with_every_kind() {
    for n in 1..=48 {
        for (index, kind) in KINDS.into_iter().enumerate() {
            let method = GMW81 + ((index + n) % 3) as u8;
            let mut rng = Rng::new(5, (n * 100 + index) as u64);
            beside(method, n, &matrix(kind, method, n, n / 2, &mut rng));
        }
    }
}

fn diagonal(values: &[f64]) -> Vec<f64> {
    let n = values.len();
    let entry = |k: usize| if k % (n + 1) == 0 { values[k / n] } else { 0.0 };
    (0..n * n).map(entry).collect()
}

/// Numbers in load order aren't the same as none: after the first swap contract 0 stands last.
#[test]
fn the_smallest_tie() {
    let a = diagonal(&[1.0, 1.0, 3.0]);
    for method in GMW81..=SE99 {
        let p = |numbers: Option<&[u32]>| factor(method, 3, &a, numbers).p;
        assert_eq!(p(None), [2, 1, 0]);
        assert_eq!(p(Some(&[0, 1, 2])), [2, 0, 1]);
        assert_eq!(p(Some(&[2, 1, 0])), [2, 1, 0]);
        assert_eq!(p(Some(&[7, 5, u32::MAX])), [2, 1, 0]);
    }
}

#[test]
fn ties_of_magnitude_and_of_zeros() {
    let p = |method: u8, a: &[f64], numbers: &[u32]| factor(method, 2, a, Some(numbers)).p;
    assert_eq!(p(GMW81, &diagonal(&[-1.0, 1.0]), &[9, 4]), [1, 0]);
    assert_eq!(p(GMW81, &diagonal(&[0.0, -0.0]), &[9, 4]), [1, 0]);
    assert_eq!(p(GMW81, &diagonal(&[1.0, 1.0]), &[4, 9]), [0, 1]);
    // No tie: the largest decides.
    assert_eq!(p(SE99, &diagonal(&[1.0, 2.0]), &[0, 9]), [1, 0]);
}

/// Circles with the same low ends: phase two's searches are tied from its first step on.
#[test]
fn ties_of_phase_two_are_settled_and_not_reported() {
    let entry = |k: usize| if k % 5 == 0 { -1.0 } else { 0.5 };
    let a: Vec<f64> = (0..16).map(entry).collect();
    for method in [SE90, SE99] {
        let found = judged(method, 4, &a, Some(&[3, 2, 1, 0]));
        assert_eq!(found.answer.phase_two, Some(0));
        assert!(found.answer.p[0] == 3 && found.ties.moved_unreported > 0);
        let tied = (method == SE90).then_some(0);
        assert_eq!(found.answer.tied, tied);
        assert_eq!(factor(method, 4, &a, None).p[0], 0);
    }
}

/// Where no search is tied, numbers change nothing.
#[test]
fn numbers_only_settle_ties() {
    let mut untied = 0;
    for (index, case) in cases(3000, 9, 8).enumerate() {
        let numbers: Vec<u32> = permutation(case.n, index);
        let found = judged(case.method, case.n, &case.matrix, Some(&numbers));
        let without = oracle::answer(case.method, case.n, &case.matrix, None);
        if found.ties == Ties::default() {
            assert!(same(&found.answer, &without));
            untied += 1;
        }
        if found.ties.moved + found.ties.moved_unreported == 0 {
            assert!(same(&found.answer, &without));
        }
    }
    assert!(untied > 1000);
}

fn permutation(n: usize, index: usize) -> Vec<u32> {
    let order = Rng::new(1, index as u64).permutation(n);
    order.into_iter().map(|x| x as u32).collect()
}
