//! Millracer's proved calls: the modified Cholesky factorizations GMW81, SE90 and SE99, solving with the
//! factor, the Gershgorin circles, plain matrix helpers and the square root.
//!
//! A matrix is a slice of n rows of n doubles in row order, n from 1 to [`MAX_N`]; rows, columns, steps
//! and places count from 0. No call panics: what it can't accept it refuses.
//!
//! ```
//! let d = millracer::mod_cholesky_gmw81(&[4.0, 2.0, 2.0, 2.0], 2)?;
//! assert_eq!(d.l, [2.0, 0.0, 1.0, 1.0]);
//! assert_eq!((d.e, d.p), (vec![0.0, 0.0], vec![0, 1]));
//! assert_eq!(d.inexact, 0);
//! # Ok::<(), millracer::Refusal>(())
//! ```

mod factor;
mod ffi;
mod helpers;
mod record;
mod refusal;
mod root;
mod solve;

pub use factor::{
    factor, factor_numbered, mod_cholesky_gmw81, mod_cholesky_numbered, mod_cholesky_se90,
    mod_cholesky_se99, Decomposition, Ended, Method,
};
pub use helpers::{
    diag_mat_from_arr, eigenvalues_2x2, gershgorin_circles, index_of_largest, index_of_largest_abs,
    index_to_permutation_mat, swap_columns, swap_rows, Eigen,
};
pub use record::{record, record_answer, RecordAnswer};
pub use refusal::Refusal;
pub use root::{sqrt, Root};
pub use solve::solve;

/// The largest n of a matrix.
pub const MAX_N: usize = 48;

/// Where n is refused its buffers are empty: its check comes before theirs.
fn buffer_size(n: usize) -> usize {
    if n <= MAX_N {
        n
    } else {
        0
    }
}
