//! Phase one of SE90 and SE99, to tell which test ends it. The oracle tells only the step.

use crate::generate::symmetric::Symmetric;
use crate::{SE90, SE99};
use modcholesky::standins::CBRT_OF_EPSILON;

/// tau, and SE99's tau_bar.
pub const TAU: f64 = f64::from_bits(CBRT_OF_EPSILON);
const MU: f64 = 0.1;

#[derive(Clone, Copy, Debug, PartialEq)]
pub enum Test {
    /// SE90: the pivot, after search and swap, against zero.
    Pivot,
    /// tmp against tau * gamma in SE90, against -mu * gamma in SE99.
    Tmp,
    /// SE99: aii_max against tau_bar * gamma.
    AiiMax,
    /// SE99: aii_min against -mu * aii_max.
    AiiMin,
}

pub struct PhaseOne {
    /// The rows that its searches found, in order.
    pub pivots: Vec<usize>,
    /// The step at which it ends, and the test that ends it.
    pub end: Option<(usize, Test)>,
}

pub fn phase_one(method: u8, matrix: &Symmetric) -> PhaseOne {
    let n = matrix.rows();
    let gamma = largest((0..n).map(|i| matrix.get(i, i).abs()));
    let limit = if method == SE99 { -MU } else { TAU } * gamma;
    let mut l = matrix.clone();
    let mut order: Vec<usize> = (0..n).collect();
    for j in 0..n {
        if let Some(test) = before_the_search(method, &l, j, gamma) {
            return ended(order, j, j, test);
        }
        pivot(&mut l, &mut order, j);
        if let Some(test) = after_the_search(method, &l, j, limit) {
            return ended(order, j + 1, j, test);
        }
        eliminate(&mut l, j);
    }
    PhaseOne {
        pivots: order,
        end: None,
    }
}

fn ended(mut order: Vec<usize>, searches: usize, step: usize, test: Test) -> PhaseOne {
    order.truncate(searches);
    PhaseOne {
        pivots: order,
        end: Some((step, test)),
    }
}

fn before_the_search(method: u8, l: &Symmetric, j: usize, gamma: f64) -> Option<Test> {
    let diagonal = || (j..l.rows()).map(|i| l.get(i, i));
    let (aii_max, aii_min) = (largest(diagonal()), least(diagonal()));
    match method {
        SE99 if aii_max < TAU * gamma => Some(Test::AiiMax),
        SE99 if aii_min < -MU * aii_max => Some(Test::AiiMin),
        _ => None,
    }
}

fn after_the_search(method: u8, l: &Symmetric, j: usize, limit: f64) -> Option<Test> {
    match method {
        SE90 if l.get(j, j) <= 0.0 => Some(Test::Pivot),
        _ if least(ahead(l, j)) < limit => Some(Test::Tmp),
        _ => None,
    }
}

/// The diagonal entries after step j.
fn ahead(l: &Symmetric, j: usize) -> impl Iterator<Item = f64> + '_ {
    let square = move |i: usize| l.get(i, j) * l.get(i, j);
    (j + 1..l.rows()).map(move |i| l.get(i, i) - square(i) / l.get(j, j))
}

fn pivot(l: &mut Symmetric, order: &mut [usize], j: usize) {
    let n = l.rows();
    let larger = |top: usize, i: usize| {
        if l.get(i, i) > l.get(top, top) {
            i
        } else {
            top
        }
    };
    let top = (j..n).fold(j, larger);
    let mut swapped: Vec<usize> = (0..n).collect();
    swapped.swap(j, top);
    order.swap(j, top);
    *l = l.reloaded(&swapped);
}

fn eliminate(l: &mut Symmetric, j: usize) {
    let root = l.get(j, j).sqrt();
    l.set(j, j, root);
    for i in j + 1..l.rows() {
        l.set(i, j, l.get(i, j) / root);
        for k in j + 1..=i {
            l.set(i, k, l.get(i, k) - l.get(i, j) * l.get(k, j));
        }
    }
}

fn largest(values: impl Iterator<Item = f64>) -> f64 {
    values.fold(f64::NEG_INFINITY, |acc, x| if x > acc { x } else { acc })
}

fn least(values: impl Iterator<Item = f64>) -> f64 {
    values.fold(f64::INFINITY, |acc, x| if x < acc { x } else { acc })
}
