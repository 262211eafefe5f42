use crate::refusal::{ended, Refusal};
use crate::{buffer_size, ffi};

#[derive(Clone, Copy, Debug, PartialEq, Eq)]
pub enum Method {
    Gmw81 = 1,
    Se90 = 2,
    Se99 = 3,
}

/// The result of a complete run.
#[derive(Clone, Debug, PartialEq)]
pub struct Decomposition {
    pub n: usize,
    /// The lower factor: n rows of n, +0.0 above the diagonal.
    pub l: Vec<f64>,
    /// `e[r]` is what was added for row r of the matrix.
    pub e: Vec<f64>,
    /// `p[t]` is the row of the matrix taken at step t.
    pub p: Vec<usize>,
    /// The first step whose pivot search was tied.
    pub tied: Option<usize>,
    /// The step at which SE90 or SE99 left phase one.
    pub phase2: Option<usize>,
    /// How many of the n roots on the diagonal rounding changed. Beta's in GMW81 and the eigenvalues' in SE90 and
    /// SE99 don't count.
    pub inexact: usize,
}

/// How a factorization on lent buffers ended. Refusal 9 keeps the steps found so far.
#[derive(Clone, Copy, Debug, PartialEq, Eq)]
pub struct Ended {
    pub outcome: Result<(), Refusal>,
    pub tied: Option<usize>,
    pub phase2: Option<usize>,
    /// As in [`Decomposition`]; 0 beside a refusal.
    pub inexact: usize,
}

fn step(number: usize) -> Option<usize> {
    (number != 255).then_some(number)
}

fn ended_run(answer: ffi::Factorization) -> Ended {
    Ended {
        outcome: ended(answer.refusal),
        tied: step(answer.tied),
        phase2: step(answer.phase2),
        inexact: answer.inexact,
    }
}

/// Factors into lent buffers: n * n for `l` and `work`, n for `e` and `p`.
///
/// Refusals before the run leave every buffer untouched. Afterwards `work` is +0.0 throughout. Refusal 9 writes
/// +0.0 over `l` and `e`, and 0 to n - 1 into `p`.
pub fn factor(
    method: Method,
    a: &[f64],
    n: usize,
    l: &mut [f64],
    work: &mut [f64],
    e: &mut [f64],
    p: &mut [usize],
) -> Ended {
    ended_run(unsafe {
        ffi::millracer_factor_doubles(
            method as usize,
            a.as_ptr(),
            a.len(),
            n,
            l.as_mut_ptr(),
            l.len(),
            work.as_mut_ptr(),
            work.len(),
            e.as_mut_ptr(),
            e.len(),
            p.as_mut_ptr(),
            p.len(),
        )
    })
}

/// The same with a contract number for each row of `a`, no two equal.
///
/// Where a pivot search is tied, the smallest number among the largest is taken, in both phases, and not
/// the first in position. The tied step is reported as it is without numbers. GMW81 then answers alike
/// however its contracts were loaded, ties included.
#[allow(clippy::too_many_arguments)]
pub fn factor_numbered(
    method: Method,
    a: &[f64],
    n: usize,
    numbers: &[u32],
    l: &mut [f64],
    work: &mut [f64],
    e: &mut [f64],
    p: &mut [usize],
) -> Ended {
    ended_run(unsafe {
        ffi::millracer_factor_numbered_doubles(
            method as usize,
            a.as_ptr(),
            a.len(),
            n,
            numbers.as_ptr(),
            numbers.len(),
            l.as_mut_ptr(),
            l.len(),
            work.as_mut_ptr(),
            work.len(),
            e.as_mut_ptr(),
            e.len(),
            p.as_mut_ptr(),
            p.len(),
        )
    })
}

fn decompose(
    method: Method,
    a: &[f64],
    n: usize,
    numbers: Option<&[u32]>,
) -> Result<Decomposition, Refusal> {
    let size = buffer_size(n);
    let (mut l, mut work) = (vec![0.0; size * size], vec![0.0; size * size]);
    let (mut e, mut p) = (vec![0.0; size], vec![0; size]);
    let run = match numbers {
        None => factor(method, a, n, &mut l, &mut work, &mut e, &mut p),
        Some(x) => factor_numbered(method, a, n, x, &mut l, &mut work, &mut e, &mut p),
    };
    run.outcome?;
    Ok(Decomposition {
        n,
        l,
        e,
        p,
        tied: run.tied,
        phase2: run.phase2,
        inexact: run.inexact,
    })
}

/// The factorization of Gill, Murray and Wright (1981) of the symmetric matrix `a`.
pub fn mod_cholesky_gmw81(a: &[f64], n: usize) -> Result<Decomposition, Refusal> {
    decompose(Method::Gmw81, a, n, None)
}

/// The factorization of Schnabel and Eskow (1990) of the symmetric matrix `a`. Phase one ends also on a pivot
/// that is zero or negative.
pub fn mod_cholesky_se90(a: &[f64], n: usize) -> Result<Decomposition, Refusal> {
    decompose(Method::Se90, a, n, None)
}

/// The factorization of Schnabel and Eskow (1999) of the symmetric matrix `a`.
pub fn mod_cholesky_se99(a: &[f64], n: usize) -> Result<Decomposition, Refusal> {
    decompose(Method::Se99, a, n, None)
}

/// The factorization by `method` of the symmetric matrix `a`, its ties settled by contract number, as
/// [`factor_numbered`] says.
///
/// ```
/// use millracer::{mod_cholesky_gmw81, mod_cholesky_numbered, Method};
/// let a = [1.0, 0.0, 0.0, 0.0, 1.0, 0.0, 0.0, 0.0, 3.0];
/// assert_eq!(mod_cholesky_gmw81(&a, 3)?.p, [2, 1, 0]);
/// assert_eq!(mod_cholesky_numbered(Method::Gmw81, &a, 3, &[0, 1, 2])?.p, [2, 0, 1]);
/// # Ok::<(), millracer::Refusal>(())
/// ```
pub fn mod_cholesky_numbered(
    method: Method,
    a: &[f64],
    n: usize,
    numbers: &[u32],
) -> Result<Decomposition, Refusal> {
    decompose(method, a, n, Some(numbers))
}
