use crate::refusal::{ended, Refusal};
use crate::{buffer_size, ffi, Decomposition};

/// Solves into the lent `y`: L times L transposed times y is b, by forward and backward substitution.
///
/// `l` (n * n) and `p` (n) are as a factorization hands them back, `b` and `y` (n each) are by the rows of its
/// matrix. Of `l` only the diagonal and what stands below it is read. A refusal leaves `y` untouched, but 9,
/// the first row in time whose value isn't finite, writes +0.0 over it.
pub fn solve(l: &[f64], n: usize, p: &[usize], b: &[f64], y: &mut [f64]) -> Result<(), Refusal> {
    ended(unsafe {
        ffi::millracer_solve_doubles(
            l.as_ptr(),
            l.len(),
            n,
            p.as_ptr(),
            p.len(),
            b.as_ptr(),
            b.len(),
            y.as_mut_ptr(),
            y.len(),
        )
    })
}

impl Decomposition {
    /// The y for the right side `b`, both by the rows of the matrix: but for rounding, the matrix with `e`
    /// added to its diagonal, times y, is b.
    ///
    /// ```
    /// let d = millracer::mod_cholesky_gmw81(&[2.0, 2.0, 2.0, 4.0], 2)?;
    /// assert_eq!(d.solve(&[6.0, 10.0])?, [1.0, 2.0]);
    /// # Ok::<(), millracer::Refusal>(())
    /// ```
    pub fn solve(&self, b: &[f64]) -> Result<Vec<f64>, Refusal> {
        let mut y = vec![0.0; buffer_size(self.n)];
        solve(&self.l, self.n, &self.p, b, &mut y)?;
        Ok(y)
    }
}
