//! Each call on operands that it accepts and that it refuses.

use millracer::*;

const INFINITY: f64 = f64::INFINITY;

#[test]
fn root() {
    let is = |value: f64, inexact: bool| Ok(Root { value, inexact });
    assert_eq!(sqrt(2.0), is(2f64.sqrt(), true));
    assert_eq!(sqrt(0.25), is(0.5, false));
    for zero in [0.0, -0.0] {
        let root = sqrt(zero).unwrap();
        assert_eq!(root.value.to_bits(), zero.to_bits());
        assert!(!root.inexact);
    }
    assert_eq!(sqrt(f64::from_bits(1)), is(2f64.powi(-537), false));
    assert_eq!(sqrt(f64::from_bits(2)), is(f64::from_bits(2).sqrt(), true));
    assert_eq!(sqrt(f64::MAX), is(f64::MAX.sqrt(), true));
    // The square of 1 + 2^-52, rounded, is no square; of 1 + 2^-26 it is one.
    let above = 1.0 + f64::EPSILON;
    assert_eq!(sqrt(above * above), is(above, true));
    let above = 1.0 + 2f64.powi(-26);
    assert_eq!(sqrt(above * above), is(above, false));
    assert_eq!(
        sqrt(INFINITY),
        Err(Refusal::NotFinite { row: 0, column: 0 })
    );
    assert_eq!(sqrt(-1.0), Err(Refusal::StoredNotFinite { step: 0 }));
}

#[test]
fn eigenvalues() {
    assert_eq!(
        eigenvalues_2x2([[2.0, 1.0], [1.0, 2.0]]),
        Ok(Eigen { hi: 3.0, lo: 1.0 })
    );
    assert_eq!(
        eigenvalues_2x2([[2.0, INFINITY], [1.0, 2.0]]),
        Err(Refusal::NotFinite { row: 0, column: 1 })
    );
    assert_eq!(
        eigenvalues_2x2([[f64::MAX, 0.0], [0.0, f64::MAX]]),
        Err(Refusal::StoredNotFinite { step: 0 })
    );
}

#[test]
fn searches() {
    let c = [3.0, -5.0, 3.0];
    assert_eq!(index_of_largest(&c), Ok(0));
    assert_eq!(index_of_largest_abs(&c), Ok(1));
    assert_eq!(index_of_largest(&[]), Err(Refusal::SizeOutOfRange));
    assert_eq!(
        index_of_largest_abs(&[1.0, 2.0, f64::NAN]),
        Err(Refusal::NotFinite { row: 2, column: 0 })
    );
    let mut long = vec![0.0; 100];
    long[77] = 1.0;
    assert_eq!(index_of_largest(&long), Ok(77));
}

#[test]
fn swaps() {
    let mut mat = [1.0, 2.0, 3.0, 4.0];
    assert_eq!(swap_rows(&mut mat, 2, 0, 1), Ok(()));
    assert_eq!(mat, [3.0, 4.0, 1.0, 2.0]);
    assert_eq!(swap_columns(&mut mat, 2, 0, 1), Ok(()));
    assert_eq!(mat, [4.0, 3.0, 2.0, 1.0]);
    assert_eq!(
        swap_rows(&mut mat, 2, 2, 0),
        Err(Refusal::IndexOutOfRange { position: 0 })
    );
    assert_eq!(
        swap_columns(&mut mat, 2, 0, 9),
        Err(Refusal::IndexOutOfRange { position: 1 })
    );
    assert_eq!(swap_rows(&mut mat, 3, 0, 1), Err(Refusal::MatrixLength));
    assert_eq!(mat, [4.0, 3.0, 2.0, 1.0]);
}

#[test]
fn plain_matrices() {
    assert_eq!(
        index_to_permutation_mat(&[1, 0]),
        Ok(vec![0.0, 1.0, 1.0, 0.0])
    );
    assert_eq!(
        index_to_permutation_mat(&[1, 2]),
        Err(Refusal::IndexOutOfRange { position: 1 })
    );
    for index in [255, 256, 257, usize::MAX] {
        assert_eq!(
            index_to_permutation_mat(&[0, 1, index]),
            Err(Refusal::IndexOutOfRange { position: 2 })
        );
    }
    for list in [vec![], vec![0; 49], vec![0; 300]] {
        assert_eq!(
            index_to_permutation_mat(&list),
            Err(Refusal::SizeOutOfRange)
        );
        let list = vec![0.0; list.len()];
        assert_eq!(diag_mat_from_arr(&list), Err(Refusal::SizeOutOfRange));
    }
    assert_eq!(diag_mat_from_arr(&[5.0, 6.0]), Ok(vec![5.0, 0.0, 0.0, 6.0]));
    assert_eq!(
        diag_mat_from_arr(&[5.0, INFINITY]),
        Err(Refusal::NotFinite { row: 1, column: 0 })
    );
}

#[test]
fn circles() {
    assert_eq!(
        gershgorin_circles(&[1.0, -2.0, 3.0, 4.0], 2),
        Ok(vec![(1.0, 2.0), (4.0, 2.0)])
    );
    let mut mat = [0.0; 9];
    mat[5] = f64::MAX;
    mat[3] = f64::MAX;
    assert_eq!(
        gershgorin_circles(&mat, 3),
        Err(Refusal::StoredNotFinite { step: 1 })
    );
    assert_eq!(
        gershgorin_circles(&mat, usize::MAX),
        Err(Refusal::SizeOutOfRange)
    );
}

#[test]
fn decompositions() {
    let d = mod_cholesky_gmw81(&[2.0, 2.0, 2.0, 4.0], 2).unwrap();
    assert_eq!(d.l, [2.0, 0.0, 1.0, 1.0]);
    assert_eq!((d.e, d.p), (vec![0.0, 0.0], vec![1, 0]));
    assert_eq!((d.n, d.tied, d.phase2, d.inexact), (2, None, None, 0));
    let identity = mod_cholesky_gmw81(&[1.0, 0.0, 0.0, 1.0], 2).unwrap();
    assert_eq!(identity.tied, Some(0));
    let d = mod_cholesky_se90(&[4.0, 2.0, 2.0, 2.0], 2).unwrap();
    assert_eq!((d.l, d.phase2), (vec![2.0, 0.0, 1.0, 1.0], None));
    let d = mod_cholesky_se99(&[-4.0], 1).unwrap();
    assert_eq!((d.phase2, d.inexact), (Some(0), 1));
    assert!(d.e[0] > 4.0);
}

/// SE90's phase one ends on a pivot at or below zero.
#[test]
fn pivots_at_or_below_zero() {
    let d = mod_cholesky_se90(&[-4.0], 1).unwrap();
    assert_eq!((d.tied, d.phase2, d.inexact), (None, Some(0), 1));
    assert_eq!(d.e[0].to_bits(), 0x4010_0006_5982_2e65);
    assert_eq!(d.l[0].to_bits(), 0x3f74_28a6_f98f_113f);
    for zero in [0.0, -0.0] {
        let d = mod_cholesky_se90(&[zero], 1).unwrap();
        assert_eq!(
            (d.phase2, d.l[0].to_bits(), d.e[0].to_bits()),
            (Some(0), 0, 0)
        );
    }
    let d = mod_cholesky_se90(&[-1.0, 2.0, 2.0, -1.0], 2).unwrap();
    assert_eq!((d.tied, d.phase2), (Some(0), Some(0)));
    // The second pivot, of the last row: the square of 3e-200 is zero in the test and not in the step.
    let d = mod_cholesky_se90(&[1e-200, 3e-200, 3e-200, 1e-200], 2).unwrap();
    assert_eq!((d.tied, d.phase2, d.e[0]), (Some(0), Some(1), 0.0));
    assert!(d.e[1] > 8e-200);
}

#[test]
fn inexact_roots() {
    for call in [mod_cholesky_gmw81, mod_cholesky_se90, mod_cholesky_se99] {
        let count = |diagonal: &[f64]| {
            let a = diag_mat_from_arr(diagonal).unwrap();
            call(&a, diagonal.len()).unwrap().inexact
        };
        assert_eq!((count(&[4.0]), count(&[2.0])), (0, 1));
        assert_eq!(count(&[4.0, 3.0, 2.0, 1.0]), 2);
        assert_eq!((count(&[1.0; 48]), count(&[2.0; 48])), (0, 48));
    }
    for call in [mod_cholesky_se90, mod_cholesky_se99] {
        for zero in [0.0, -0.0] {
            assert_eq!(call(&[zero], 1).unwrap().inexact, 0);
        }
        // Both of the last block, then its second alone.
        assert_eq!(call(&[1.0, 2.0, 2.0, -1.0], 2).unwrap().inexact, 2);
        let a = [-9.0, 2.0, 2.0, 2.0, -8.0, 4.0, 2.0, 4.0, -9.0];
        let d = call(&a, 3).unwrap();
        assert_eq!((d.l[0], d.l[4], d.inexact), (2.0, 2.0, 1));
        // The eigenvalues' alone, which doesn't count.
        let a = [-9.0, 2.0, 2.0, 2.0, -7.0, 2.0, 2.0, 2.0, -8.0];
        let d = call(&a, 3).unwrap();
        assert_eq!(([d.l[0], d.l[4], d.l[8]], d.inexact), ([2.0, 1.0, 1.0], 0));
    }
}

#[test]
fn refused_matrices() {
    let all = [mod_cholesky_gmw81, mod_cholesky_se90, mod_cholesky_se99];
    for call in all {
        assert!(call(&diag_mat_from_arr(&[2.0; 48]).unwrap(), 48).is_ok());
        for n in [0, 49, usize::MAX] {
            assert_eq!(call(&[1.0], n), Err(Refusal::SizeOutOfRange));
        }
        assert_eq!(call(&[1.0], 2), Err(Refusal::MatrixLength));
        assert_eq!(
            call(&[1.0, 0.0, f64::NAN, 1.0], 2),
            Err(Refusal::NotFinite { row: 1, column: 0 })
        );
        assert_eq!(
            call(&[1.0, 0.0, -0.0, 1.0], 2),
            Err(Refusal::Unsymmetric { row: 0, column: 1 })
        );
    }
    assert_eq!(
        mod_cholesky_gmw81(&[f64::MAX; 4], 2),
        Err(Refusal::StoredNotFinite { step: 0 })
    );
}

#[test]
fn lent_buffers() {
    let (mut l, mut work) = ([7.0; 4], [7.0; 4]);
    let (mut e, mut p) = ([7.0; 2], [7; 2]);
    let a = [0.0; 4];
    let ended = factor(Method::Se90, &a, 2, &mut l, &mut work, &mut e[..1], &mut p);
    assert_eq!(ended.outcome, Err(Refusal::BufferLength));
    assert_eq!((ended.tied, ended.phase2, ended.inexact), (None, None, 0));
    assert_eq!((l, work, e, p), ([7.0; 4], [7.0; 4], [7.0; 2], [7; 2]));
    let ended = factor(Method::Se90, &a, 2, &mut l, &mut work, &mut e, &mut p);
    assert_eq!(ended.outcome, Err(Refusal::StoredNotFinite { step: 0 }));
    assert_eq!(
        (ended.tied, ended.phase2, ended.inexact),
        (Some(0), Some(0), 0)
    );
    assert_eq!((l, work, e, p), ([0.0; 4], [0.0; 4], [0.0; 2], [0, 1]));
    let ended = factor(
        Method::Gmw81,
        &[4.0, 0.0, 0.0, 3.0],
        2,
        &mut l,
        &mut work,
        &mut e,
        &mut p,
    );
    assert_eq!((ended.outcome, ended.inexact), (Ok(()), 1));
}

/// The first root was taken and is inexact; the second pivot is zero, and phase two is refused at step 1.
#[test]
fn no_count_beside_a_refusal() {
    let (mut l, mut work) = ([7.0; 9], [7.0; 9]);
    let (mut e, mut p) = ([7.0; 3], [7; 3]);
    let mut a = [0.0; 9];
    a[0] = f64::from_bits(2);
    let ended = factor(Method::Se90, &a, 3, &mut l, &mut work, &mut e, &mut p);
    assert_eq!(ended.outcome, Err(Refusal::StoredNotFinite { step: 1 }));
    assert_eq!(
        (ended.tied, ended.phase2, ended.inexact),
        (Some(1), Some(1), 0)
    );
}

/// The diagonal 1, 1, 3: after the first swap contract 0 stands last.
const TIED: [f64; 9] = [1.0, 0.0, 0.0, 0.0, 1.0, 0.0, 0.0, 0.0, 3.0];
const METHODS: [Method; 3] = [Method::Gmw81, Method::Se90, Method::Se99];

#[test]
fn contract_numbers() {
    for method in METHODS {
        let run = |numbers: &[u32]| mod_cholesky_numbered(method, &TIED, 3, numbers);
        for (numbers, p) in [
            ([0, 1, 2], [2, 0, 1]),
            ([7, 5, 6], [2, 1, 0]),
            ([u32::MAX - 1, u32::MAX, 0], [2, 0, 1]),
            ([1 << 8, 1, 2], [2, 1, 0]),
        ] {
            let d = run(&numbers).unwrap();
            assert_eq!((d.p, d.tied, d.phase2), (p.to_vec(), Some(1), None));
            assert_eq!(d.inexact, 1);
        }
        for numbers in [&[][..], &[1, 2], &[1, 2, 3, 4]] {
            assert_eq!(run(numbers), Err(Refusal::NumbersLength));
        }
        for (numbers, position) in [([5, 5, 5], 1), ([5, 6, 5], 2), ([5, 6, 6], 2)] {
            assert_eq!(run(&numbers), Err(Refusal::NumberRepeated { position }));
        }
    }
    assert_eq!(mod_cholesky_gmw81(&TIED, 3).unwrap().p, [2, 1, 0]);
}

/// 3, 4, 12, 13, 5, 7, 8, each before the next.
#[test]
fn numbers_among_the_checks() {
    let (mut l, mut work) = ([7.0; 4], [7.0; 4]);
    let (mut e, mut p) = ([7.0; 2], [7; 2]);
    let mut run = |a: &[f64], n: usize, numbers: &[u32], e_len: usize| {
        let e = &mut e[..e_len];
        let ended = factor_numbered(Method::Se99, a, n, numbers, &mut l, &mut work, e, &mut p);
        assert_eq!((ended.tied, ended.phase2, ended.inexact), (None, None, 0));
        assert_eq!((l, work, p), ([7.0; 4], [7.0; 4], [7; 2]));
        ended.outcome.unwrap_err().number()
    };
    let (nan, unsymmetric) = ([f64::NAN; 4], [1.0, 0.0, -0.0, 1.0]);
    assert_eq!(run(&nan, 49, &[1], 1), 3);
    assert_eq!(run(&nan[1..], 2, &[1], 1), 4);
    assert_eq!(run(&nan, 2, &[1, 1, 1], 1), 12);
    assert_eq!(run(&nan, 2, &[1, 1], 1), 13);
    assert_eq!(run(&nan, 2, &[1, 2], 1), 5);
    assert_eq!(run(&nan, 2, &[1, 2], 2), 7);
    assert_eq!(run(&unsymmetric, 2, &[1, 2], 2), 8);
}

/// Contracts loaded in another order, their numbers with them.
#[test]
fn load_order_by_number() {
    let a = [2.0, 1.0, 0.5, 1.0, 2.0, -1.0, 0.5, -1.0, 2.0];
    let (numbers, s) = ([30, 10, 20], [2, 0, 1]);
    let first = mod_cholesky_numbered(Method::Gmw81, &a, 3, &numbers).unwrap();
    let reloaded: Vec<f64> = s
        .iter()
        .flat_map(|&i| s.iter().map(move |&j| a[3 * i + j]))
        .collect();
    let moved = s.map(|i| numbers[i]);
    let second = mod_cholesky_numbered(Method::Gmw81, &reloaded, 3, &moved).unwrap();
    assert_eq!((first.p[0], first.tied), (1, Some(0)));
    assert_eq!((&first.l, first.tied), (&second.l, second.tied));
    assert_eq!(first.inexact, second.inexact);
    assert_eq!(s.map(|i| first.e[i]).to_vec(), second.e);
    let contracts: Vec<usize> = second.p.iter().map(|&row| s[row]).collect();
    assert_eq!(first.p, contracts);
}

const FACTOR: [f64; 4] = [2.0, f64::NAN, 1.0, 1.0];

#[test]
fn solutions() {
    let d = mod_cholesky_gmw81(&[2.0, 2.0, 2.0, 4.0], 2).unwrap();
    assert_eq!(d.solve(&[6.0, 10.0]), Ok(vec![1.0, 2.0]));
    let mut y = [7.0; 2];
    assert_eq!(solve(&FACTOR, 2, &[1, 0], &[6.0, 10.0], &mut y), Ok(()));
    assert_eq!(y, [1.0, 2.0]);
    let d = mod_cholesky_se99(&diag_mat_from_arr(&[4.0; 48]).unwrap(), 48).unwrap();
    assert_eq!(d.solve(&[8.0; 48]), Ok(vec![2.0; 48]));
    assert_eq!(d.solve(&[8.0; 47]), Err(Refusal::ListLength));
    for n in [0, 49, usize::MAX] {
        let other = Decomposition { n, ..d.clone() };
        assert_eq!(other.solve(&[8.0; 48]), Err(Refusal::SizeOutOfRange));
    }
}

/// 3, 4, 5, 14, 6, 7, 15, each before the next; y stays as it is.
#[test]
fn refused_systems() {
    let refused = |l: &[f64], n: usize, p: &[usize], b: &[f64], y_len: usize| {
        let mut y = vec![7.0; y_len];
        let refusal = solve(l, n, p, b, &mut y).unwrap_err();
        assert!(y.iter().all(|&x| x == 7.0));
        refusal
    };
    let nan = [f64::NAN; 4];
    let zeros = [0.0, f64::NAN, 1.0, -0.0];
    assert_eq!(refused(&nan[1..], 49, &[5], &[], 1).number(), 3);
    assert_eq!(refused(&nan[1..], 2, &[5], &[], 1).number(), 4);
    assert_eq!(refused(&nan, 2, &[5], &[], 1).number(), 5);
    assert_eq!(refused(&nan, 2, &[5], &nan[2..], 2), Refusal::ListLength);
    assert_eq!(refused(&nan, 2, &[5, 5], &[], 2), Refusal::ListLength);
    for p in [[1, 1], [0, 2], [0, 256], [1, usize::MAX]] {
        let repeated = Refusal::IndexOutOfRange { position: 1 };
        assert_eq!(refused(&nan, 2, &p, &nan[2..], 2), repeated);
    }
    let entry = Refusal::NotFinite { row: 0, column: 0 };
    assert_eq!(refused(&nan, 2, &[1, 0], &nan[2..], 2), entry);
    let right = Refusal::NotFinite { row: 1, column: 0 };
    assert_eq!(refused(&zeros, 2, &[1, 0], &[1.0, f64::NAN], 2), right);
    let zero = Refusal::ZeroDiagonal { row: 0 };
    assert_eq!(refused(&zeros, 2, &[1, 0], &[1.0, 1.0], 2), zero);
}

#[test]
fn overflow_in_solving() {
    let low = 2f64.powi(-600);
    let mut y = [7.0; 2];
    let ended = solve(&[1.0, 0.0, 0.0, low], 2, &[1, 0], &[1.0, 1.0], &mut y);
    assert_eq!(ended, Err(Refusal::StoredNotFinite { step: 1 }));
    assert_eq!(y.map(f64::to_bits), [0, 0]);
}

#[test]
fn refusals_in_words() {
    let refusal = mod_cholesky_se99(&[1.0, 2.0, 3.0, 1.0], 2).unwrap_err();
    assert_eq!((refusal.number(), refusal.place()), (8, (0, 1)));
    assert_eq!(
        refusal.to_string(),
        "refusal 8: the matrix is unsymmetric at row 0, column 1"
    );
}

const MATRIX: [u8; 19] = [
    1, 1, 0, 1, 2, 1, 0, 1, 3, 8, 0, 0, 0, 0, 0, 0, 0, 0x10, 0x40,
];

#[test]
fn records() {
    let matrix = MATRIX;
    let marks = [0x11, 1, 0, 0, 0x12, 1, 0, 0xff, 0x13, 1, 0, 0xff];
    let inexact = [0x18, 1, 0, 0];
    let order = [0x14, 1, 0, 0];
    let amounts = [0x15, 8, 0, 0, 0, 0, 0, 0, 0, 0, 0];
    let factor = [0x16, 8, 0, 0, 0, 0, 0, 0, 0, 0, 0x40];
    assert_eq!(
        record(&matrix),
        [&marks[..], &inexact, &order, &amounts, &factor].concat()
    );
    let mut two = matrix;
    two[17..].copy_from_slice(&[0, 0x40]);
    assert_eq!(record(&two)[12..16], [0x18, 1, 0, 1]);
    let refused = |number: u8| {
        [
            0x11, 1, 0, number, 0x12, 1, 0, 0xff, 0x13, 1, 0, 0xff, 0x17, 2, 0, 0, 0,
        ]
    };
    assert_eq!(record(&[]), refused(10));
    assert_eq!(record(&[0; 20000]), refused(1));

    assert_eq!(record_answer(&matrix).outcome, Ok(()));
    assert_eq!(record_answer(&matrix).answer, record(&matrix));
    let long = record_answer(&[0; 20000]);
    assert_eq!(long.outcome, Err(Refusal::MalformedRecord));
    assert_eq!(long.answer, refused(1));
    let mut infinite = matrix;
    infinite[17..].copy_from_slice(&[0xf0, 0x7f]);
    assert_eq!(
        record_answer(&infinite).outcome,
        Err(Refusal::NotFinite { row: 0, column: 0 })
    );
}

fn refused(record: &[u8]) -> Refusal {
    record_answer(record).outcome.unwrap_err()
}

/// Each field and its bytes in the record of one row.
const FIELDS: [(usize, usize, usize); 3] = [(0, 0, 4), (1, 4, 8), (2, 8, 19)];

#[test]
fn cut_records() {
    for (field, start, end) in FIELDS {
        for length in start..end {
            let refusal = refused(&MATRIX[..length]);
            assert_eq!(refusal, Refusal::FieldPastEnd { field });
            assert_eq!((refusal.number(), refusal.place()), (10, (field, 0)));
        }
    }
}

#[test]
fn wrong_tags() {
    for (field, start, end) in FIELDS {
        let due = |tag: u8| tag == MATRIX[start] || (field, tag) == (2, 4);
        for tag in (0..=255).filter(|&tag| !due(tag)) {
            let mut record = MATRIX;
            record[start] = tag;
            for length in [end, MATRIX.len()] {
                let refusal = refused(&record[..length]);
                assert_eq!(refusal, Refusal::TagNotDue { field, tag });
                assert_eq!((refusal.number(), refusal.place()), (11, (field, 0)));
            }
            let cut = Refusal::FieldPastEnd { field };
            assert_eq!(refused(&record[..end - 1]), cut);
        }
    }
}

/// With the contract number 9.
const NUMBERED: [u8; 26] = [
    1, 1, 0, 1, 2, 1, 0, 1, 4, 4, 0, 9, 0, 0, 0, 3, 8, 0, 0, 0, 0, 0, 0, 0, 0x10, 0x40,
];

#[test]
fn numbered_records() {
    assert_eq!(record(&NUMBERED), record(&MATRIX));
    for (field, start, end) in [(2, 8, 15), (3, 15, 26)] {
        for length in start..end {
            let cut = Refusal::FieldPastEnd { field };
            assert_eq!(refused(&NUMBERED[..length]), cut);
        }
    }
    for tag in (0..=255).filter(|&tag| tag != 3) {
        let mut record = NUMBERED;
        record[15] = tag;
        assert_eq!(refused(&record), Refusal::TagNotDue { field: 3, tag });
    }
    let short = [&NUMBERED[..8], &[4, 3, 0, 9, 0, 0], &NUMBERED[15..]].concat();
    assert_eq!(refused(&short), Refusal::NumbersLength);
    let mut two = vec![
        1, 1, 0, 2, 2, 1, 0, 1, 4, 8, 0, 9, 0, 0, 1, 9, 0, 0, 1, 3, 32, 0,
    ];
    two.extend([0; 32]);
    let repeated = Refusal::NumberRepeated { position: 1 };
    assert_eq!(refused(&two), repeated);
    assert_eq!((repeated.number(), repeated.place()), (13, (1, 0)));
    two[15] = 8;
    assert_eq!(record_answer(&two).outcome, Ok(()));
    assert_eq!(record(&two)[7], 0);
}

/// The tag is found by the lengths that the fields have, whatever they are.
#[test]
fn tags_after_wrong_lengths() {
    let mut record = vec![1, 0x2c, 1];
    record.resize(303, 0);
    record.extend([2, 0, 0, 9, 0, 0]);
    assert_eq!(refused(&record), Refusal::TagNotDue { field: 2, tag: 9 });
    record[306] = 3;
    assert_eq!(refused(&record), Refusal::MalformedRecord);
    record.pop();
    assert_eq!(refused(&record), Refusal::FieldPastEnd { field: 2 });
}

#[test]
fn broken_records_in_words() {
    let words = |record: &[u8]| refused(record).to_string();
    assert_eq!(
        words(&MATRIX[..11]),
        "refusal 10: the transfer was cut in field 2"
    );
    let without_method = [&MATRIX[..4], &MATRIX[8..]].concat();
    assert_eq!(
        words(&without_method),
        "refusal 11: field 1 has tag 03, 02 was due"
    );
    let method_twice = [&MATRIX[..8], &MATRIX[4..8]].concat();
    assert_eq!(
        words(&method_twice),
        "refusal 11: field 2 has tag 02, 03 or 04 was due"
    );
    assert_eq!(
        words(&[&NUMBERED[..15], &NUMBERED[8..]].concat()),
        "refusal 11: field 3 has tag 04, 03 was due"
    );
    assert_eq!(
        Refusal::NumbersLength.to_string(),
        "refusal 12: not exactly one contract number for each row"
    );
    assert_eq!(
        Refusal::NumberRepeated { position: 2 }.to_string(),
        "refusal 13: row 2 has the contract number of an earlier row"
    );
    assert_eq!(
        Refusal::ListLength.to_string(),
        "refusal 14: the pivot order or the right side has a wrong length"
    );
    let zero = Refusal::ZeroDiagonal { row: 3 };
    assert_eq!((zero.number(), zero.place()), (15, (3, 0)));
    assert_eq!(
        zero.to_string(),
        "refusal 15: the diagonal of L is zero at row 3"
    );
    assert_eq!(
        words(&[&MATRIX[..], &[0]].concat()),
        "refusal 1: the record is too long, or n or method is not one byte long, or bytes follow the last field"
    );
}
