//! The port's exported calls on slices of bytes. A call lent buffers writes to them.

#[path = "../../../bindings/rust/src/ffi.rs"]
mod ffi;

/// Number, row and column; all 0 in a call that isn't refused.
pub type Refusal = [usize; 3];

/// The bytes of the longest answer record.
pub const LONGEST_ANSWER: usize = 18_889;

fn refusal(r: ffi::Refusal) -> Refusal {
    [r.number, r.row, r.column]
}

/// The refusal, and the length of the answer record.
pub fn record(record: &[u8], answer: &mut [u8]) -> (Refusal, usize) {
    let (at, len) = (answer.as_mut_ptr(), answer.len());
    let written = unsafe { ffi::millracer_record(record.as_ptr(), record.len(), at, len) };
    (refusal(written.refusal), written.length)
}

/// The buffers lent to a factorization: T has an entry, P a row.
#[derive(Clone)]
pub struct Buffers<T, P> {
    pub l: Vec<T>,
    pub work: Vec<T>,
    pub e: Vec<T>,
    pub p: Vec<P>,
}

/// The refusal; the tied and the phase-two step, 255 for none, and how many roots were inexact.
pub type Factored = (Refusal, [usize; 3]);

fn factored(answer: ffi::Factorization) -> Factored {
    let marks = [answer.tied, answer.phase2, answer.inexact];
    (refusal(answer.refusal), marks)
}

pub fn factor_bytes(method: usize, a: &[u8], n: usize, lent: &mut Buffers<u8, u8>) -> Factored {
    factored(unsafe {
        ffi::millracer_factor_bytes(
            method,
            a.as_ptr(),
            a.len(),
            n,
            lent.l.as_mut_ptr(),
            lent.l.len(),
            lent.work.as_mut_ptr(),
            lent.work.len(),
            lent.e.as_mut_ptr(),
            lent.e.len(),
            lent.p.as_mut_ptr(),
            lent.p.len(),
        )
    })
}

pub fn factor_doubles(
    method: usize,
    a: &[f64],
    n: usize,
    lent: &mut Buffers<f64, usize>,
) -> Factored {
    factored(unsafe {
        ffi::millracer_factor_doubles(
            method,
            a.as_ptr(),
            a.len(),
            n,
            lent.l.as_mut_ptr(),
            lent.l.len(),
            lent.work.as_mut_ptr(),
            lent.work.len(),
            lent.e.as_mut_ptr(),
            lent.e.len(),
            lent.p.as_mut_ptr(),
            lent.p.len(),
        )
    })
}

pub fn factor_numbered_bytes(
    method: usize,
    a: &[u8],
    n: usize,
    numbers: &[u8],
    lent: &mut Buffers<u8, u8>,
) -> Factored {
    factored(unsafe {
        ffi::millracer_factor_numbered_bytes(
            method,
            a.as_ptr(),
            a.len(),
            n,
            numbers.as_ptr(),
            numbers.len(),
            lent.l.as_mut_ptr(),
            lent.l.len(),
            lent.work.as_mut_ptr(),
            lent.work.len(),
            lent.e.as_mut_ptr(),
            lent.e.len(),
            lent.p.as_mut_ptr(),
            lent.p.len(),
        )
    })
}

pub fn factor_numbered_doubles(
    method: usize,
    a: &[f64],
    n: usize,
    numbers: &[u32],
    lent: &mut Buffers<f64, usize>,
) -> Factored {
    factored(unsafe {
        ffi::millracer_factor_numbered_doubles(
            method,
            a.as_ptr(),
            a.len(),
            n,
            numbers.as_ptr(),
            numbers.len(),
            lent.l.as_mut_ptr(),
            lent.l.len(),
            lent.work.as_mut_ptr(),
            lent.work.len(),
            lent.e.as_mut_ptr(),
            lent.e.len(),
            lent.p.as_mut_ptr(),
            lent.p.len(),
        )
    })
}

pub fn solve_bytes(l: &[u8], n: usize, p: &[u8], b: &[u8], y: &mut [u8]) -> Refusal {
    refusal(unsafe {
        ffi::millracer_solve_bytes(
            l.as_ptr(),
            l.len(),
            n,
            p.as_ptr(),
            p.len(),
            b.as_ptr(),
            b.len(),
            y.as_mut_ptr(),
            y.len(),
        )
    })
}

pub fn solve_doubles(l: &[f64], n: usize, p: &[usize], b: &[f64], y: &mut [f64]) -> Refusal {
    refusal(unsafe {
        ffi::millracer_solve_doubles(
            l.as_ptr(),
            l.len(),
            n,
            p.as_ptr(),
            p.len(),
            b.as_ptr(),
            b.len(),
            y.as_mut_ptr(),
            y.len(),
        )
    })
}

/// The root, and 1 if rounding changed it.
pub fn sqrt(x: f64) -> (Refusal, f64, usize) {
    let answer = unsafe { ffi::millracer_sqrt(x) };
    (refusal(answer.refusal), answer.value, answer.inexact)
}

pub fn eigenvalues_2x2([[a, b], [c, d]]: [[f64; 2]; 2]) -> (Refusal, [f64; 2]) {
    let answer = unsafe { ffi::millracer_eigenvalues_2x2(a, b, c, d) };
    (refusal(answer.refusal), [answer.hi, answer.lo])
}

pub fn index_of_largest(c: &[u8]) -> (Refusal, usize) {
    let answer = unsafe { ffi::millracer_index_of_largest_bytes(c.as_ptr(), c.len()) };
    (refusal(answer.refusal), answer.index)
}

pub fn index_of_largest_abs(c: &[u8]) -> (Refusal, usize) {
    let answer = unsafe { ffi::millracer_index_of_largest_abs_bytes(c.as_ptr(), c.len()) };
    (refusal(answer.refusal), answer.index)
}

pub fn swap_rows(mat: &mut [u8], n: usize, idx1: usize, idx2: usize) -> Refusal {
    let (at, len) = (mat.as_mut_ptr(), mat.len());
    refusal(unsafe { ffi::millracer_swap_rows_bytes(at, len, n, idx1, idx2) })
}

pub fn swap_columns(mat: &mut [u8], n: usize, idx1: usize, idx2: usize) -> Refusal {
    let (at, len) = (mat.as_mut_ptr(), mat.len());
    refusal(unsafe { ffi::millracer_swap_columns_bytes(at, len, n, idx1, idx2) })
}

pub fn index_to_permutation_mat(idxs: &[u8], mat: &mut [u8]) -> Refusal {
    let (from, count) = (idxs.as_ptr(), idxs.len());
    let (at, len) = (mat.as_mut_ptr(), mat.len());
    refusal(unsafe { ffi::millracer_index_to_permutation_mat_bytes(from, count, at, len) })
}

pub fn diag_mat_from_arr(arr: &[u8], mat: &mut [u8]) -> Refusal {
    let (at, len) = (mat.as_mut_ptr(), mat.len());
    refusal(unsafe { ffi::millracer_diag_mat_from_arr_bytes(arr.as_ptr(), arr.len(), at, len) })
}

pub fn gershgorin_circles(mat: &[u8], n: usize, centres: &mut [u8], radii: &mut [u8]) -> Refusal {
    refusal(unsafe {
        ffi::millracer_gershgorin_circles_bytes(
            mat.as_ptr(),
            mat.len(),
            n,
            centres.as_mut_ptr(),
            centres.len(),
            radii.as_mut_ptr(),
            radii.len(),
        )
    })
}
