//! The helpers of the listed Rust on plain slices. They make no checks.

use modcholesky::{utils, GershgorinCircles};
use ndarray::{s, Array1, Array2};

/// The larger eigenvalue, then the smaller one.
pub fn eigenvalues_2x2(block: [[f64; 2]; 2]) -> (f64, f64) {
    utils::eigenvalues_2x2(&square(2, &block.concat()).slice(s![0.., 0..]))
}

pub fn index_of_largest(values: &[f64]) -> usize {
    utils::index_of_largest(&list(values).slice(s![0..]))
}

pub fn index_of_largest_abs(values: &[f64]) -> usize {
    utils::index_of_largest_abs(&list(values).slice(s![0..]))
}

pub fn swap_rows(n: usize, a: &[f64], i: usize, j: usize) -> Vec<f64> {
    let mut matrix = square(n, a);
    utils::swap_rows(&mut matrix, i, j);
    matrix.into_raw_vec()
}

pub fn swap_columns(n: usize, a: &[f64], i: usize, j: usize) -> Vec<f64> {
    let mut matrix = square(n, a);
    utils::swap_columns(&mut matrix, i, j);
    matrix.into_raw_vec()
}

pub fn index_to_permutation_mat(indexes: &[usize]) -> Vec<f64> {
    utils::index_to_permutation_mat(indexes).into_raw_vec()
}

pub fn diag_mat_from_arr(values: &[f64]) -> Vec<f64> {
    utils::diag_mat_from_arr(values).into_raw_vec()
}

/// Centre and radius for each row, or the first row with an infinite sum of its own or its column.
pub fn gershgorin_circles(n: usize, a: &[f64]) -> Result<Vec<(f64, f64)>, usize> {
    watch::begin();
    let circles = square(n, a).gershgorin_circles();
    match watch::end().refused {
        None => Ok(circles),
        Some(row) => Err(row),
    }
}

fn square(n: usize, a: &[f64]) -> Array2<f64> {
    Array2::from_shape_vec((n, n), a.to_vec()).unwrap()
}

fn list(values: &[f64]) -> Array1<f64> {
    values.iter().copied().collect()
}
