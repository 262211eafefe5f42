//! Document 01's hand calculations as document 02 changes them, and the cases outside its table.

use oracle::{helpers, Answer, COMPLETE, GMW81, NOT_FINITE, SE90, SE99};

fn factor(method: u8, n: usize, a: &[f64]) -> Answer {
    oracle::answer(method, n, a, None)
}

/// Equal doubles, +0.0 and -0.0 apart.
fn same(left: &[f64], right: &[f64]) {
    let bits = |list: &[f64]| list.iter().map(|x| x.to_bits()).collect::<Vec<_>>();
    assert_eq!(bits(left), bits(right), "{left:?} against {right:?}");
}

fn complete(answer: &Answer, l: &[f64], e: &[f64], p: &[usize]) {
    assert_eq!((answer.refusal, answer.step), (COMPLETE, 0));
    same(&answer.l, l);
    same(&answer.e, e);
    assert_eq!(answer.p, p);
}

fn not_finite(answer: &Answer, step: usize) {
    let n = answer.p.len();
    assert_eq!((answer.refusal, answer.step), (NOT_FINITE, step));
    same(&answer.l, &vec![0.0; n * n]);
    same(&answer.e, &vec![0.0; n]);
    assert!(answer.p.iter().copied().eq(0..n));
}

fn marks(answer: &Answer) -> (Option<usize>, Option<usize>) {
    (answer.tied, answer.phase_two)
}

#[test]
fn gmw81_of_one_entry() {
    complete(&factor(GMW81, 1, &[4.0]), &[2.0], &[0.0], &[0]);
    complete(&factor(GMW81, 1, &[-4.0]), &[2.0], &[8.0], &[0]);
    let (root, amount) = (2f64.powi(-26), 2f64.powi(-52));
    complete(&factor(GMW81, 1, &[0.0]), &[root], &[amount], &[0]);
}

#[test]
fn gmw81_of_two_rows() {
    let l = [2.0, 0.0, 1.0, 1.0];
    let first = factor(GMW81, 2, &[4.0, 2.0, 2.0, 2.0]);
    complete(&first, &l, &[0.0, 0.0], &[0, 1]);
    let second = factor(GMW81, 2, &[2.0, 2.0, 2.0, 4.0]);
    complete(&second, &l, &[0.0, 0.0], &[1, 0]);
    assert_eq!(marks(&second), (None, None));
}

#[test]
fn gmw81_of_the_identity() {
    let identity = [1.0, 0.0, 0.0, 1.0];
    let answer = factor(GMW81, 2, &identity);
    complete(&answer, &identity, &[0.0, 0.0], &[0, 1]);
    assert_eq!(marks(&answer), (Some(0), None));
}

#[test]
fn gmw81_of_the_largest_double() {
    not_finite(&factor(GMW81, 2, &[f64::MAX; 4]), 0);
}

#[test]
fn se90() {
    let answer = factor(SE90, 2, &[4.0, 2.0, 2.0, 2.0]);
    complete(&answer, &[2.0, 0.0, 1.0, 1.0], &[0.0, 0.0], &[0, 1]);
    assert_eq!(answer.phase_two, None);
}

/// The pivot is negative, or zero: phase two begins.
#[test]
fn se90_of_pivots_at_or_below_zero() {
    let negative = factor(SE90, 1, &[-4.0]);
    let (l, e) = (0x3f74_28a6_f98f_113f, 0x4010_0006_5982_2e65);
    let [l, e] = [l, e].map(f64::from_bits);
    complete(&negative, &[l], &[e], &[0]);
    assert_eq!(marks(&negative), (None, Some(0)));
    for zero in [0.0, -0.0] {
        let answer = factor(SE90, 1, &[zero]);
        complete(&answer, &[0.0], &[0.0], &[0]);
        assert_eq!(marks(&answer), (None, Some(0)));
    }
    let zeros = factor(SE90, 2, &[0.0; 4]);
    not_finite(&zeros, 0);
    assert_eq!(marks(&zeros), (Some(0), Some(0)));
}

/// The last of two rows: zero is left of it, then -3/4, times a power of two whose square underflows in tmp.
#[test]
fn se90_of_a_last_row() {
    let small = 2f64.powi(-650);
    let (root, tau) = (2f64.powi(-324), oracle::second::TAU);
    for (last, left) in [(1.0, 0.0), (0.25, -0.75)] {
        let answer = factor(SE90, 2, &[4.0, 2.0, 2.0, last].map(|x| x * small));
        let share = f64::max(tau * 4.0, tau * -left / (1.0 - tau));
        let amount = (-left + share) * small;
        let l = [root, 0.0, root / 2.0, (left * small + amount).sqrt()];
        complete(&answer, &l, &[0.0, amount], &[0, 1]);
        assert_eq!(marks(&answer), (None, Some(1)));
    }
}

#[test]
fn helpers_by_hand() {
    assert_eq!(
        helpers::eigenvalues_2x2([[2.0, 1.0], [1.0, 2.0]]),
        (3.0, 1.0)
    );
    let circles = helpers::gershgorin_circles(2, &[1.0, -2.0, 3.0, 4.0]);
    assert_eq!(circles, Ok(vec![(1.0, 2.0), (4.0, 2.0)]));
    assert_eq!(helpers::index_of_largest(&[3.0, -5.0, 3.0]), 0);
    assert_eq!(helpers::index_of_largest_abs(&[3.0, -5.0, 3.0]), 1);
    let least = f64::from_bits(1);
    assert_eq!(least.sqrt().to_bits(), 2f64.powi(-537).to_bits());
}

#[test]
fn outside_the_table() {
    assert_eq!(factor(GMW81, 48, &[1.0; 48 * 48]).refusal, COMPLETE);
    let answer = factor(SE99, 1, &[-4.0]);
    assert_eq!(answer.refusal, COMPLETE);
    assert_eq!(marks(&answer), (None, Some(0)));
}
