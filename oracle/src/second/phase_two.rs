use super::elimination::eliminate;
use super::last_rows;
use super::run::{stored, NotFinite, Run};
use super::words::{max, sum_of_magnitudes, EPSILON};
use super::Variant;

/// From step k, where it begins.
pub fn from(run: &mut Run, v: Variant, gamma: f64, k: usize) -> Result<(), NotFinite> {
    if k + 1 == run.n {
        return last_rows::one(run, v.share, gamma);
    }
    let mut g = bounds(run, k)?;
    let mut delta_prev = 0.0;
    for j in k..run.n - 2 {
        run.step = j;
        step(run, v, gamma, &mut g, &mut delta_prev, j)?;
    }
    run.step = run.n - 2;
    last_rows::two(run, v.method, gamma, delta_prev)
}

/// The lower Gershgorin bounds of what is left at step k.
fn bounds(run: &Run, k: usize) -> Result<Vec<f64>, NotFinite> {
    let l = &run.l;
    let mut g = vec![0.0; run.n];
    for i in k..run.n {
        let before = sum_of_magnitudes((k..i).map(|m| l[(i, m)]));
        let after = sum_of_magnitudes((i + 1..run.n).map(|m| l[(m, i)]));
        g[i] = stored(l[(i, i)] - before - after)?;
    }
    Ok(g)
}

fn step(
    run: &mut Run,
    v: Variant,
    gamma: f64,
    g: &mut [f64],
    delta_prev: &mut f64,
    j: usize,
) -> Result<(), NotFinite> {
    let pivot = run.pick(j, |i| g[i]);
    run.exchange(j, pivot);
    g.swap(j, pivot);
    let normj = stored(sum_of_magnitudes((j + 1..run.n).map(|i| run.l[(i, j)])))?;
    let wanted = -run.l[(j, j)] + max(normj, v.share * gamma);
    run.e[j] = stored(max(max(0.0, *delta_prev), wanted))?;
    if run.e[j] > 0.0 {
        run.l[(j, j)] = stored(run.l[(j, j)] + run.e[j])?;
        *delta_prev = run.e[j];
    }
    update(run, g, normj, j)?;
    eliminate(run, j)
}

/// The bounds of what is left after step j.
fn update(run: &Run, g: &mut [f64], normj: f64, j: usize) -> Result<(), NotFinite> {
    let l = &run.l;
    if (l[(j, j)] - normj).abs() > EPSILON {
        let tmp = 1.0 - normj / l[(j, j)];
        for i in j + 1..run.n {
            g[i] = stored(g[i] + l[(i, j)].abs() * tmp)?;
        }
    }
    Ok(())
}
