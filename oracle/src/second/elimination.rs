use super::run::{stored, NotFinite, Run};

/// Step j of the factorization, in both phases.
pub fn eliminate(run: &mut Run, j: usize) -> Result<(), NotFinite> {
    let root = run.root(run.l[(j, j)])?;
    let l = &mut run.l;
    l[(j, j)] = root;
    for i in j + 1..run.n {
        l[(i, j)] = stored(l[(i, j)] / l[(j, j)])?;
        l[(j, i)] = stored(l[(j, i)] / l[(j, j)])?;
        for k in j + 1..=i {
            l[(i, k)] = stored(l[(i, k)] - l[(i, j)] * l[(k, j)])?;
            l[(k, i)] = l[(i, k)];
        }
    }
    Ok(())
}
