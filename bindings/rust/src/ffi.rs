//! The archive's functions, as bindings/millracer.h declares them: a slice is a pointer and a length.
//! Those named `.._bytes` take doubles as bytes, eight each with the low byte first.

#[repr(C)]
pub struct Refusal {
    pub number: usize,
    pub row: usize,
    pub column: usize,
}

#[repr(C)]
pub struct Factorization {
    pub refusal: Refusal,
    pub tied: usize,
    pub phase2: usize,
    pub inexact: usize,
}

#[repr(C)]
pub struct Written {
    pub refusal: Refusal,
    pub length: usize,
}

#[repr(C)]
pub struct Root {
    pub refusal: Refusal,
    pub value: f64,
    pub inexact: usize,
}

#[repr(C)]
pub struct Eigenvalues {
    pub refusal: Refusal,
    pub hi: f64,
    pub lo: f64,
}

#[repr(C)]
pub struct FoundIndex {
    pub refusal: Refusal,
    pub index: usize,
}

extern "C" {
    pub fn millracer_factor_doubles(
        method: usize,
        a: *const f64,
        a_len: usize,
        n: usize,
        l: *mut f64,
        l_len: usize,
        work: *mut f64,
        work_len: usize,
        e: *mut f64,
        e_len: usize,
        p: *mut usize,
        p_len: usize,
    ) -> Factorization;
    // By the comparison alone.
    #[allow(dead_code)]
    pub fn millracer_factor_bytes(
        method: usize,
        a: *const u8,
        a_len: usize,
        n: usize,
        l: *mut u8,
        l_len: usize,
        work: *mut u8,
        work_len: usize,
        e: *mut u8,
        e_len: usize,
        p: *mut u8,
        p_len: usize,
    ) -> Factorization;
    pub fn millracer_factor_numbered_doubles(
        method: usize,
        a: *const f64,
        a_len: usize,
        n: usize,
        numbers: *const u32,
        numbers_len: usize,
        l: *mut f64,
        l_len: usize,
        work: *mut f64,
        work_len: usize,
        e: *mut f64,
        e_len: usize,
        p: *mut usize,
        p_len: usize,
    ) -> Factorization;
    // By the comparison alone.
    #[allow(dead_code)]
    pub fn millracer_factor_numbered_bytes(
        method: usize,
        a: *const u8,
        a_len: usize,
        n: usize,
        numbers: *const u8,
        numbers_len: usize,
        l: *mut u8,
        l_len: usize,
        work: *mut u8,
        work_len: usize,
        e: *mut u8,
        e_len: usize,
        p: *mut u8,
        p_len: usize,
    ) -> Factorization;
    pub fn millracer_solve_doubles(
        l: *const f64,
        l_len: usize,
        n: usize,
        p: *const usize,
        p_len: usize,
        b: *const f64,
        b_len: usize,
        y: *mut f64,
        y_len: usize,
    ) -> Refusal;
    // By the comparison alone.
    #[allow(dead_code)]
    pub fn millracer_solve_bytes(
        l: *const u8,
        l_len: usize,
        n: usize,
        p: *const u8,
        p_len: usize,
        b: *const u8,
        b_len: usize,
        y: *mut u8,
        y_len: usize,
    ) -> Refusal;
    pub fn millracer_record(
        record: *const u8,
        record_len: usize,
        answer: *mut u8,
        answer_len: usize,
    ) -> Written;
    pub fn millracer_sqrt(x: f64) -> Root;
    pub fn millracer_eigenvalues_2x2(a: f64, b: f64, c: f64, d: f64) -> Eigenvalues;
    pub fn millracer_index_of_largest_bytes(c: *const u8, c_len: usize) -> FoundIndex;
    pub fn millracer_index_of_largest_abs_bytes(c: *const u8, c_len: usize) -> FoundIndex;
    pub fn millracer_swap_rows_bytes(
        mat: *mut u8,
        mat_len: usize,
        n: usize,
        idx1: usize,
        idx2: usize,
    ) -> Refusal;
    pub fn millracer_swap_columns_bytes(
        mat: *mut u8,
        mat_len: usize,
        n: usize,
        idx1: usize,
        idx2: usize,
    ) -> Refusal;
    pub fn millracer_index_to_permutation_mat_bytes(
        idxs: *const u8,
        idxs_len: usize,
        mat: *mut u8,
        mat_len: usize,
    ) -> Refusal;
    pub fn millracer_diag_mat_from_arr_bytes(
        arr: *const u8,
        arr_len: usize,
        mat: *mut u8,
        mat_len: usize,
    ) -> Refusal;
    pub fn millracer_gershgorin_circles_bytes(
        mat: *const u8,
        mat_len: usize,
        n: usize,
        centres: *mut u8,
        centres_len: usize,
        radii: *mut u8,
        radii_len: usize,
    ) -> Refusal;
}
