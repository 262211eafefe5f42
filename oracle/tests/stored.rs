//! Which values count as stored, and at which step: what the Rust does and, where SE90 meets a pivot at or below
//! zero, what documents 01 and 02 ask for.

use oracle::{answer, asked, factor, helpers, Answer, COMPLETE, GMW81, NOT_FINITE, SE90, SE99};

/// What SE90 is asked for where the Rust can't be.
fn left_out(n: usize, a: &[f64]) -> Answer {
    assert_eq!(asked(SE90, n, a), None);
    answer(SE90, n, a, None)
}

fn refused(method: u8, n: usize, a: &[f64]) -> (u8, usize) {
    let answer = factor(method, n, a);
    (answer.refusal, answer.step)
}

#[test]
fn infinite_on_the_way_to_a_finite_factor() {
    let matrix = [2e155, 1e155, 1e155, 3e155];
    for method in [GMW81, SE90, SE99] {
        assert_eq!(refused(method, 2, &matrix), (NOT_FINITE, 0));
    }
}

#[test]
fn eigenvalue_root_of_a_number_rounded_below_zero() {
    let last = -(1.0 + f64::EPSILON);
    let matrix = [-1.0, 0.0, 0.0, 0.0, -1.0, 1e-10, 0.0, 1e-10, last];
    for method in [SE90, SE99] {
        let answer = factor(method, 3, &matrix);
        assert_eq!((answer.refusal, answer.step), (NOT_FINITE, 1));
        assert_eq!(answer.phase_two, Some(0));
    }
}

#[test]
fn squares_that_underflow_in_the_test() {
    let matrix = [1e-200, 3e-200, 3e-200, 1e-200];
    let se90 = factor(SE90, 2, &matrix);
    assert_eq!(
        (se90.refusal, se90.step, se90.phase_two),
        (NOT_FINITE, 1, None)
    );
    let wanted = left_out(2, &matrix);
    assert_eq!((wanted.refusal, wanted.phase_two), (COMPLETE, Some(1)));
    assert_eq!(wanted.tied, Some(0));
    let se99 = factor(SE99, 2, &matrix);
    assert_eq!((se99.refusal, se99.phase_two), (COMPLETE, Some(1)));
    assert_eq!((se90.tied, se99.tied), (Some(0), Some(0)));
}

#[test]
fn zero_pivot_after_a_pivot_whose_tolerance_underflows() {
    let least = f64::from_bits(1);
    let matrix = [least, 0.0, 0.0, 0.0, 0.0, 0.0, 0.0, 0.0, 0.0];
    for method in [SE90, SE99] {
        let answer = factor(method, 3, &matrix);
        assert_eq!((answer.refusal, answer.step), (NOT_FINITE, 1));
        assert_eq!((answer.tied, answer.phase_two), (Some(1), None));
    }
    let wanted = left_out(3, &matrix);
    assert_eq!((wanted.refusal, wanted.step), (NOT_FINITE, 1));
    assert_eq!((wanted.tied, wanted.phase_two), (Some(1), Some(1)));
}

#[test]
fn negative_pivot_that_passes_the_test_of_se90() {
    let matrix = [-1.0, 2.0, 2.0, -1.0];
    let se90 = factor(SE90, 2, &matrix);
    assert_eq!((se90.refusal, se90.step), (NOT_FINITE, 0));
    assert_eq!((se90.tied, se90.phase_two), (Some(0), None));
    let wanted = left_out(2, &matrix);
    assert_eq!(wanted.refusal, COMPLETE);
    assert_eq!((wanted.tied, wanted.phase_two), (Some(0), Some(0)));
    assert_eq!(factor(SE99, 2, &matrix).phase_two, Some(0));
}

#[test]
fn amount_of_a_single_row_that_overflows() {
    for method in [SE90, SE99] {
        let refused = answer(method, 1, &[-f64::MAX], None);
        assert_eq!((refused.refusal, refused.step), (NOT_FINITE, 0));
        assert_eq!((refused.tied, refused.phase_two), (None, Some(0)));
        let accepted = answer(method, 1, &[-f64::MAX / 2.0], None);
        assert_eq!((accepted.refusal, accepted.phase_two), (COMPLETE, Some(0)));
    }
    assert_eq!(factor(SE90, 1, &[-f64::MAX]).phase_two, None);
}

#[test]
fn amount_that_overflows() {
    assert_eq!(refused(GMW81, 1, &[-1e308]), (NOT_FINITE, 0));
    let matrix = [1.7e308, 0.0, 0.0, -1e308];
    assert_eq!(refused(GMW81, 2, &matrix), (NOT_FINITE, 1));
}

#[test]
fn zero_row_within_phase_two() {
    let unit = f64::from_bits(1);
    let mut matrix = [0.0; 16];
    (matrix[0], matrix[15]) = (2.0 * unit, -unit);
    for method in [SE90, SE99] {
        let answer = factor(method, 4, &matrix);
        assert_eq!((answer.refusal, answer.step), (NOT_FINITE, 1));
        assert_eq!(answer.phase_two, Some(0));
    }
}

#[test]
fn zeros_of_either_sign_tie() {
    let matrix = [0.0, 0.0, 0.0, -0.0];
    for method in [GMW81, SE90, SE99] {
        assert_eq!(factor(method, 2, &matrix).tied, Some(0));
    }
}

#[test]
fn the_sign_of_a_zero_factor() {
    assert_eq!(factor(SE90, 1, &[-0.0]).l[0].to_bits(), (-0.0f64).to_bits());
    assert_eq!(left_out(1, &[-0.0]).l[0].to_bits(), 0.0f64.to_bits());
    assert_eq!(factor(SE99, 1, &[-0.0]).l[0].to_bits(), (-0.0f64).to_bits());
    let answer = factor(GMW81, 2, &[1.0, -0.0, -0.0, 1.0]);
    assert_eq!(answer.l[2].to_bits(), 0.0f64.to_bits());
}

#[test]
fn no_search_where_the_first_test_of_se99_ends_phase_one() {
    let matrix = [-1.0, 0.0, 0.0, -1.0];
    let se99 = factor(SE99, 2, &matrix);
    assert_eq!((se99.tied, se99.phase_two), (None, Some(0)));
    let se90 = factor(SE90, 2, &matrix);
    assert_eq!((se90.tied, se90.phase_two), (Some(0), Some(0)));
    // The test of the pivot ends it too.
    assert_eq!(left_out(2, &matrix), se90);
}

#[test]
fn infinite_circles_of_phase_two_count_at_its_first_step() {
    let mut matrix = [1.5e308; 9];
    matrix[8] = 1.0;
    for method in [SE90, SE99] {
        let answer = factor(method, 3, &matrix);
        assert_eq!(
            (answer.refusal, answer.step, answer.phase_two),
            (NOT_FINITE, 0, Some(0))
        );
    }
}

#[test]
fn both_sums_of_a_circle_count() {
    let big = f64::MAX;
    let matrix = [1.0, 0.0, big, 0.0, 2.0, big, 0.0, 0.0, 3.0];
    assert_eq!(helpers::gershgorin_circles(3, &matrix), Err(2));
}

#[test]
fn swaps_and_plain_matrices() {
    let a = [1.0, 2.0, 3.0, f64::NAN];
    assert_eq!(helpers::swap_rows(2, &a, 0, 1)[2..], [1.0, 2.0]);
    assert_eq!(helpers::swap_columns(2, &a, 0, 1)[..2], [2.0, 1.0]);
    assert_eq!(
        helpers::index_to_permutation_mat(&[1, 1]),
        [0.0, 1.0, 0.0, 1.0]
    );
    assert_eq!(
        helpers::diag_mat_from_arr(&[2.0, 3.0]),
        [2.0, 0.0, 0.0, 3.0]
    );
}
