//! The helpers as the three methods call them: the same answers, with a word to the watch.

use crate::utils;
pub use crate::utils::{swap_columns, swap_rows};
use ndarray::{ArrayView1, ArrayView2};

pub fn index_of_largest(c: &ArrayView1<f64>) -> usize {
    let found = utils::index_of_largest(c);
    if watch::ON {
        watch::search(c.iter().filter(|&&x| x == c[found]).count());
    }
    found
}

pub fn index_of_largest_abs(c: &ArrayView1<f64>) -> usize {
    let found = utils::index_of_largest_abs(c);
    if watch::ON {
        watch::search(c.iter().filter(|x| x.abs() == c[found].abs()).count());
    }
    found
}

pub fn eigenvalues_2x2(mat: &ArrayView2<f64>) -> (f64, f64) {
    let (hi, lo) = utils::eigenvalues_2x2(mat);
    watch::value(hi);
    watch::value(lo);
    (hi, lo)
}
