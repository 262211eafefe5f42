use super::run::{stored, NotFinite, Run};
use super::square::Square;
use super::words::{largest_magnitude, max, square, sum, EPSILON};

struct Bounds {
    delta: f64,
    beta: f64,
}

pub fn run(run: &mut Run) -> Result<(), NotFinite> {
    let n = run.n;
    let bounds = bounds(n, &run.l);
    let mut c = Square::diagonal_of(&run.l);
    let mut d = vec![0.0; n];
    for j in 0..n {
        run.step = j;
        step(run, &mut c, &mut d, &bounds, j)?;
    }
    run.step = n;
    scale(run, &d)
}

fn bounds(n: usize, a: &Square) -> Bounds {
    let places = || (0..n).flat_map(|i| (0..n).map(move |j| (i, j)));
    let diag_max = largest_magnitude((0..n).map(|i| a[(i, i)]));
    let off_diag_max = largest_magnitude(places().filter(|(i, j)| i != j).map(|at| a[at]));
    let delta = EPSILON * max(1.0, diag_max + off_diag_max);
    // 0 / 0 at n = 1, which max drops.
    let spread = off_diag_max / (square(n as f64) - 1.0).sqrt();
    let beta = max(max(diag_max, spread), EPSILON).sqrt();
    Bounds { delta, beta }
}

fn step(
    run: &mut Run,
    c: &mut Square,
    d: &mut [f64],
    bounds: &Bounds,
    j: usize,
) -> Result<(), NotFinite> {
    let pivot = run.pick(j, |i| c[(i, i)].abs());
    c.exchange(j, pivot);
    run.exchange(j, pivot);
    for s in 0..j {
        run.l[(j, s)] = stored(c[(j, s)] / d[s])?;
    }
    column(run, c, j)?;
    let theta = largest_magnitude((j + 1..run.n).map(|i| c[(i, j)]));
    let least = max(c[(j, j)].abs(), square(theta / bounds.beta));
    d[j] = stored(max(least, bounds.delta))?;
    for i in j + 1..run.n {
        c[(i, i)] = stored(c[(i, i)] - square(c[(i, j)]) / d[j])?;
    }
    run.e[j] = stored(d[j] - c[(j, j)])?;
    Ok(())
}

/// Column j of c from its diagonal on.
fn column(run: &Run, c: &mut Square, j: usize) -> Result<(), NotFinite> {
    for i in j..run.n {
        let products = sum((0..j).map(|s| run.l[(j, s)] * c[(i, s)]));
        c[(i, j)] = stored(run.l[(i, j)] - products)?;
    }
    Ok(())
}

/// L, with ones on its diagonal, times the diagonal matrix of the roots of d.
fn scale(run: &mut Run, d: &[f64]) -> Result<(), NotFinite> {
    let n = run.n;
    for i in 0..n {
        run.l[(i, i)] = 1.0;
    }
    run.l.clear_upper();
    let roots = d.iter().map(|&x| run.root(x));
    let roots = roots.collect::<Result<Vec<f64>, NotFinite>>()?;
    for i in 0..n {
        let row: Vec<f64> = (0..n).map(|k| run.l[(i, k)]).collect();
        for (j, &root) in roots.iter().enumerate() {
            let entry = |k: usize| if k == j { root } else { 0.0 };
            run.l[(i, j)] = stored(sum((0..n).map(|k| row[k] * entry(k))))?;
        }
    }
    Ok(())
}
