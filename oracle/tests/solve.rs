//! The second implementation of solving: hand calculations, every check and its place, and 9 by row.

use oracle::record::{bytes, doubles};
use oracle::second::solve::{solve, Refusal, System};

/// With a y of NaNs lent.
fn system(l: &[f64], p: &[usize], b: &[f64]) -> System {
    System {
        n: b.len(),
        l: bytes(l),
        p: p.to_vec(),
        b: bytes(b),
        y: bytes(&vec![f64::NAN; b.len()]),
    }
}

fn solution(system: &System) -> Vec<f64> {
    let solved = solve(system);
    assert_eq!((solved.refusal, solved.backward), ([0, 0, 0], false));
    doubles(&solved.y)
}

/// Refused before the first row: y stays as it was lent.
fn refused(system: &System) -> Refusal {
    let solved = solve(system);
    assert_eq!((solved.backward, &solved.y), (false, &system.y));
    solved.refusal
}

/// Refused at a row: y is +0.0 throughout.
fn stopped(system: &System) -> (usize, bool) {
    let solved = solve(system);
    let [number, row, column] = solved.refusal;
    assert_eq!((number, column), (9, 0));
    assert!(solved.y.iter().all(|&byte| byte == 0));
    (row, solved.backward)
}

const L: [f64; 4] = [2.0, 0.0, 1.0, 1.0];

/// (4 2; 2 2) w = (10, 6) in pivot order has w = (2, 1).
#[test]
fn by_hand() {
    assert_eq!(solution(&system(&L, &[1, 0], &[6.0, 10.0])), [1.0, 2.0]);
    assert_eq!(solution(&system(&L, &[0, 1], &[10.0, 6.0])), [2.0, 1.0]);
    assert_eq!(solution(&system(&[-2.0], &[0], &[12.0])), [3.0]);
}

/// The columns of the lower part by rising row: 1 + 2^-53 - 1 is 0 in one order, 2^-53 in the other.
#[test]
fn sums_run_by_rising_row() {
    let tiny = 2f64.powi(-53);
    let last = [1.0, tiny, -1.0];
    let mut l = [0.0; 16];
    (0..4).for_each(|i| l[5 * i] = 1.0);
    (1..4).for_each(|i| l[4 * i] = last[i - 1]);
    let y = solution(&system(&l, &[0, 1, 2, 3], &[0.0, 1.0, 1.0, 1.0]));
    assert_eq!(y[0].to_bits(), 0f64.to_bits());
    let mut l = [0.0; 16];
    (0..4).for_each(|i| l[5 * i] = 1.0);
    l[12..15].copy_from_slice(&last);
    let z = solution(&system(&l, &[0, 1, 2, 3], &[1.0, 1.0, 1.0, 0.0]));
    assert_eq!(z[3].to_bits(), 0f64.to_bits());
}

#[test]
fn above_the_diagonal_nothing_is_read() {
    for upper in [f64::NAN, f64::INFINITY, 7.0] {
        let l = [2.0, upper, 1.0, 1.0];
        assert_eq!(solution(&system(&l, &[1, 0], &[6.0, 10.0])), [1.0, 2.0]);
    }
}

/// Each fault before the next: all at once, then mended one by one.
#[test]
fn checks_in_order() {
    let mut s = system(&L, &[1, 0], &[6.0, 10.0]);
    let nan = f64::NAN;
    s.n = 49;
    s.l = bytes(&[nan; 3]);
    s.y.pop();
    s.p = vec![0, 0, 0];
    s.b = bytes(&[nan; 3]);
    assert_eq!(refused(&s), [3, 0, 0]);
    s.n = 2;
    assert_eq!(refused(&s), [4, 0, 0]);
    s.l = bytes(&[0.0, nan, nan, -0.0]);
    assert_eq!(refused(&s), [5, 0, 0]);
    s.y = vec![7; 16];
    assert_eq!(refused(&s), [14, 0, 0]);
    s.p.pop();
    assert_eq!(refused(&s), [14, 0, 0]);
    s.b = bytes(&[1.0, nan]);
    assert_eq!(refused(&s), [6, 1, 0]);
    s.p = vec![2, 255];
    assert_eq!(refused(&s), [6, 0, 0]);
    s.p = vec![1, 0];
    assert_eq!(refused(&s), [7, 1, 0]);
    s.l = bytes(&[0.0, nan, 1.0, -0.0]);
    assert_eq!(refused(&s), [7, 1, 0]);
    s.b = bytes(&[1.0, 1.0]);
    assert_eq!(refused(&s), [15, 0, 0]);
    s.l = bytes(&[1.0, nan, 1.0, -0.0]);
    assert_eq!(refused(&s), [15, 1, 0]);
    s.l = bytes(&[1.0, nan, 1.0, -1.0]);
    assert_eq!(solution(&s), [-0.0, 1.0]);
}

#[test]
fn no_rows_and_lengths_in_bytes() {
    let mut s = system(&L, &[1, 0], &[6.0, 10.0]);
    s.l.pop();
    assert_eq!(refused(&s), [4, 0, 0]);
    s = system(&L, &[1, 0], &[6.0, 10.0]);
    s.b.push(0);
    assert_eq!(refused(&s), [14, 0, 0]);
    for n in [0, 49, usize::MAX] {
        assert_eq!(refused(&System { n, ..s.clone() }), [3, 0, 0]);
    }
}

/// 2^-600 on the diagonal: its row overflows backward, and forward where the right side is large.
#[test]
fn the_first_row_in_time() {
    let (low, high) = (2f64.powi(-600), 2f64.powi(600));
    let l = [low, 0.0, 0.0, 0.0, 1.0, 0.0, 0.0, 0.0, low];
    let p = [2, 0, 1];
    assert_eq!(stopped(&system(&l, &p, &[1.0, 1.0, 1.0])), (2, true));
    assert_eq!(stopped(&system(&l, &p, &[1.0, 0.0, 1.0])), (0, true));
    assert_eq!(stopped(&system(&l, &p, &[1.0, high, 1.0])), (2, false));
    assert_eq!(stopped(&system(&l, &p, &[1.0, high, high])), (0, false));
}
