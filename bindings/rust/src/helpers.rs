use crate::refusal::{ended, Refusal};
use crate::{buffer_size, ffi};

// The archive reads doubles as x86-64 keeps them, and lengths in bytes.

/// The larger and the smaller eigenvalue.
#[derive(Clone, Copy, Debug, PartialEq)]
pub struct Eigen {
    pub hi: f64,
    pub lo: f64,
}

pub fn eigenvalues_2x2(mat: [[f64; 2]; 2]) -> Result<Eigen, Refusal> {
    let [[a, b], [c, d]] = mat;
    let answer = unsafe { ffi::millracer_eigenvalues_2x2(a, b, c, d) };
    ended(answer.refusal)?;
    Ok(Eigen {
        hi: answer.hi,
        lo: answer.lo,
    })
}

/// The first of equals, in a list of any length above 0.
pub fn index_of_largest(c: &[f64]) -> Result<usize, Refusal> {
    let answer = unsafe { ffi::millracer_index_of_largest_bytes(c.as_ptr().cast(), 8 * c.len()) };
    ended(answer.refusal)?;
    Ok(answer.index)
}

/// By magnitude; the first of equals.
pub fn index_of_largest_abs(c: &[f64]) -> Result<usize, Refusal> {
    let answer =
        unsafe { ffi::millracer_index_of_largest_abs_bytes(c.as_ptr().cast(), 8 * c.len()) };
    ended(answer.refusal)?;
    Ok(answer.index)
}

pub fn swap_rows(mat: &mut [f64], n: usize, idx1: usize, idx2: usize) -> Result<(), Refusal> {
    let (at, len) = (mat.as_mut_ptr().cast(), 8 * mat.len());
    ended(unsafe { ffi::millracer_swap_rows_bytes(at, len, n, idx1, idx2) })
}

pub fn swap_columns(mat: &mut [f64], n: usize, idx1: usize, idx2: usize) -> Result<(), Refusal> {
    let (at, len) = (mat.as_mut_ptr().cast(), 8 * mat.len());
    ended(unsafe { ffi::millracer_swap_columns_bytes(at, len, n, idx1, idx2) })
}

/// Row i has 1 at column `idxs[i]`, else 0. An index may be repeated.
pub fn index_to_permutation_mat(idxs: &[usize]) -> Result<Vec<f64>, Refusal> {
    let size = buffer_size(idxs.len());
    let mut mat = vec![0.0; size * size];
    // An index above 255 stays out of range.
    let bytes: Vec<u8> = idxs
        .iter()
        .map(|&index| index.try_into().unwrap_or(255))
        .collect();
    ended(unsafe {
        ffi::millracer_index_to_permutation_mat_bytes(
            bytes.as_ptr(),
            bytes.len(),
            mat.as_mut_ptr().cast(),
            8 * mat.len(),
        )
    })?;
    Ok(mat)
}

/// `arr` on the diagonal, else 0.
pub fn diag_mat_from_arr(arr: &[f64]) -> Result<Vec<f64>, Refusal> {
    let size = buffer_size(arr.len());
    let mut mat = vec![0.0; size * size];
    ended(unsafe {
        ffi::millracer_diag_mat_from_arr_bytes(
            arr.as_ptr().cast(),
            8 * arr.len(),
            mat.as_mut_ptr().cast(),
            8 * mat.len(),
        )
    })?;
    Ok(mat)
}

/// Centre and radius of each row's Gershgorin circle, of a matrix that is symmetric or not.
pub fn gershgorin_circles(mat: &[f64], n: usize) -> Result<Vec<(f64, f64)>, Refusal> {
    let size = buffer_size(n);
    let (mut centres, mut radii) = (vec![0.0; size], vec![0.0; size]);
    ended(unsafe {
        ffi::millracer_gershgorin_circles_bytes(
            mat.as_ptr().cast(),
            8 * mat.len(),
            n,
            centres.as_mut_ptr().cast(),
            8 * centres.len(),
            radii.as_mut_ptr().cast(),
            8 * radii.len(),
        )
    })?;
    Ok(centres.into_iter().zip(radii).collect())
}
