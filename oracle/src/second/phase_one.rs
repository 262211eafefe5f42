use super::elimination::eliminate;
use super::run::{NotFinite, Run};
use super::words::{largest, least, square, MU, TAU_BAR};
use super::Variant;
use crate::{SE90, SE99};

/// The step at which phase one ends, if it does.
pub fn end(run: &mut Run, v: Variant, gamma: f64) -> Result<Option<usize>, NotFinite> {
    for j in 0..run.n {
        run.step = j;
        if ends(run, v, gamma, j) {
            run.phase_two = Some(j);
            return Ok(Some(j));
        }
        eliminate(run, j)?;
    }
    Ok(None)
}

/// Searches and swaps, unless SE99's test of the diagonal ends the phase before.
fn ends(run: &mut Run, v: Variant, gamma: f64, j: usize) -> bool {
    if v.method == SE99 && diagonal_ends(run, gamma, j) {
        return true;
    }
    let diagonal: Vec<f64> = (0..run.n).map(|i| run.l[(i, i)]).collect();
    let pivot = run.pick(j, |i| diagonal[i]);
    run.exchange(j, pivot);
    (v.method == SE90 && pivot_ends(run, j)) || ahead(run, j) < v.ahead * gamma
}

/// Whether the pivot is a zero of either sign, or negative.
fn pivot_ends(run: &mut Run, j: usize) -> bool {
    let met = run.l[(j, j)] <= 0.0;
    run.not_positive = met.then_some(j);
    met
}

fn diagonal_ends(run: &Run, gamma: f64, j: usize) -> bool {
    let diagonal = || (j..run.n).map(|i| run.l[(i, i)]);
    let aii_max = largest(diagonal());
    let aii_min = least(diagonal());
    aii_max < TAU_BAR * gamma || aii_min < -MU * aii_max
}

/// The Rust's tmp: the least diagonal entry after step j.
fn ahead(run: &Run, j: usize) -> f64 {
    let l = &run.l;
    least((j + 1..run.n).map(|i| l[(i, i)] - square(l[(i, j)]) / l[(j, j)]))
}
