//! Solving with the factor, which the Rust has no call for: document 02's checks and steps in plain loops,
//! written from the document and apart from the port.

use super::run::{stored, NotFinite};
use super::square::Square;
use super::words::sum;
use crate::record::{bytes, doubles, MAX_N};

/// Number, row and column; all 0 in a call that isn't refused.
pub type Refusal = [usize; 3];

/// The operands of a call: doubles as eight bytes each, and y as it is lent.
#[derive(Clone, Debug)]
pub struct System {
    pub n: usize,
    pub l: Vec<u8>,
    pub p: Vec<usize>,
    pub b: Vec<u8>,
    pub y: Vec<u8>,
}

/// How a call ends, and y as it is left.
#[derive(Clone, Debug, PartialEq)]
pub struct Solved {
    pub refusal: Refusal,
    /// Whether a row of the backward substitution was refused.
    pub backward: bool,
    pub y: Vec<u8>,
}

pub fn solve(system: &System) -> Solved {
    if let Err(refusal) = lengths(system).and_then(|()| contents(system)) {
        return Solved {
            refusal,
            backward: false,
            y: system.y.clone(),
        };
    }
    let l = Square::new(system.n, &doubles(&system.l));
    let b = doubles(&system.b);
    let ahead = forward(&l, &system.p, &b).map_err(|row| (row, false));
    let solved = ahead.and_then(|z| backward(&l, z).map_err(|row| (row, true)));
    match solved {
        Ok(w) => Solved {
            refusal: [0, 0, 0],
            backward: false,
            y: bytes(&in_contract_order(&system.p, &w)),
        },
        Err((row, backward)) => Solved {
            refusal: [9, row, 0],
            backward,
            y: bytes(&vec![0.0; system.n]),
        },
    }
}

/// 3, 4, 5, 14.
fn lengths(system: &System) -> Result<(), Refusal> {
    let n = system.n;
    if n == 0 || n > MAX_N.into() {
        return Err([3, 0, 0]);
    }
    if system.l.len() != 8 * n * n {
        return Err([4, 0, 0]);
    }
    if system.y.len() != 8 * n {
        return Err([5, 0, 0]);
    }
    if system.p.len() != n || system.b.len() != 8 * n {
        return Err([14, 0, 0]);
    }
    Ok(())
}

/// 6, 7 and 15, of operands with their own lengths.
fn contents(system: &System) -> Result<(), Refusal> {
    let (n, p) = (system.n, &system.p);
    let l = Square::new(n, &doubles(&system.l));
    let lower = || (0..n).flat_map(|i| (0..=i).map(move |j| (i, j)));
    if let Some(k) = (0..n).find(|&k| p[k] >= n || p[..k].contains(&p[k])) {
        return Err([6, k, 0]);
    }
    if let Some((i, j)) = lower().find(|&at| !l[at].is_finite()) {
        return Err([7, i, j]);
    }
    if let Some(k) = doubles(&system.b).iter().position(|x| !x.is_finite()) {
        return Err([7, k, 0]);
    }
    if let Some(i) = (0..n).find(|&i| l[(i, i)] == 0.0) {
        return Err([15, i, 0]);
    }
    Ok(())
}

/// z in pivot order, or the refused row.
fn forward(l: &Square, p: &[usize], b: &[f64]) -> Result<Vec<f64>, usize> {
    let mut z = Vec::new();
    for (t, &contract) in p.iter().enumerate() {
        let products = sum((0..t).map(|k| l[(t, k)] * z[k]));
        let value = (b[contract] - products) / l[(t, t)];
        z.push(stored(value).map_err(|NotFinite| t)?);
    }
    Ok(z)
}

/// w in pivot order, or the refused row.
fn backward(l: &Square, z: Vec<f64>) -> Result<Vec<f64>, usize> {
    let n = z.len();
    let mut w = vec![0.0; n];
    for t in (0..n).rev() {
        let products = sum((t + 1..n).map(|k| l[(k, t)] * w[k]));
        let value = (z[t] - products) / l[(t, t)];
        w[t] = stored(value).map_err(|NotFinite| t)?;
    }
    Ok(w)
}

fn in_contract_order(p: &[usize], w: &[f64]) -> Vec<f64> {
    let mut y = vec![0.0; w.len()];
    for (&contract, &value) in p.iter().zip(w) {
        y[contract] = value;
    }
    y
}
