//! What phase two adds last: one amount, or two eigenvalues with a shared amount.

use super::run::{stored, NotFinite, Run};
use super::words::{max, square, TAU, TAU_BAR};
use crate::SE90;

/// Phase two begins at step n - 1, with this share of gamma.
pub fn one(run: &mut Run, share: f64, gamma: f64) -> Result<(), NotFinite> {
    let j = run.n - 1;
    let last = run.l[(j, j)];
    run.e[j] = stored(-last + max(share * gamma, TAU * -last / (1.0 - TAU)))?;
    run.l[(j, j)] = stored(last + run.e[j])?;
    run.l[(j, j)] = run.root(run.l[(j, j)])?;
    Ok(())
}

pub fn two(run: &mut Run, method: u8, gamma: f64, delta_prev: f64) -> Result<(), NotFinite> {
    let (i, j) = (run.n - 2, run.n - 1);
    let (lhi, llo) = eigenvalues(run)?;
    let wanted = -llo + share(method, gamma, lhi - llo);
    run.e[i] = stored(max(max(0.0, wanted), delta_prev))?;
    run.e[j] = run.e[i];
    if run.e[i] > 0.0 {
        run.l[(i, i)] = stored(run.l[(i, i)] + run.e[i])?;
        run.l[(j, j)] = stored(run.l[(j, j)] + run.e[j])?;
    }
    run.l[(i, i)] = run.root(run.l[(i, i)])?;
    run.l[(j, i)] = stored(run.l[(j, i)] / run.l[(i, i)])?;
    run.l[(j, j)] = run.root(run.l[(j, j)] - square(run.l[(j, i)]))?;
    Ok(())
}

fn share(method: u8, gamma: f64, width: f64) -> f64 {
    match method {
        SE90 => TAU * max(gamma, 1.0 / (1.0 - TAU) * width),
        _ => max(TAU_BAR * gamma, TAU * width / (1.0 - TAU)),
    }
}

/// Of the last block, the larger first.
fn eigenvalues(run: &Run) -> Result<(f64, f64), NotFinite> {
    let (i, j) = (run.n - 2, run.n - 1);
    let [a, b, c, d] = [(i, i), (i, j), (j, i), (j, j)].map(|at| run.l[at]);
    let tmp = (square(-(a + d) / 2.0) - a * d + b * c).sqrt();
    let l1 = stored((a + d) / 2.0 + tmp)?;
    let l2 = stored((a + d) / 2.0 - tmp)?;
    Ok(if l1 > l2 { (l1, l2) } else { (l2, l1) })
}
