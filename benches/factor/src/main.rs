//! Microseconds a factorization of the proved code (its call on doubles), of the Rust and of plain C on
//! the same matrices, and the ratios, for each method at n = 8, 24 and 48; then of solving with the factor.

mod solve;

use millracer::{factor, Method};
use modcholesky::{ModCholeskyGMW81, ModCholeskySE90, ModCholeskySE99};
use ndarray::Array2;
use std::hint::black_box;
use std::time::Instant;

extern "C" {
    fn c_gmw81(a: *const f64, n: usize, l: *mut f64, c: *mut f64, e: *mut f64, p: *mut usize);
    fn c_se(se99: i32, a: *const f64, n: usize, l: *mut f64, e: *mut f64, p: *mut usize);
}

struct Buffers {
    l: Vec<f64>,
    work: Vec<f64>,
    e: Vec<f64>,
    p: Vec<usize>,
}

impl Buffers {
    fn new(n: usize) -> Buffers {
        Buffers {
            l: vec![0.0; n * n],
            work: vec![0.0; n * n],
            e: vec![0.0; n],
            p: vec![0; n],
        }
    }
}

fn proved(method: Method, n: usize, a: &[f64], b: &mut Buffers) -> bool {
    let ended = factor(method, a, n, &mut b.l, &mut b.work, &mut b.e, &mut b.p);
    ended.outcome.is_ok()
}

fn plain_c(method: Method, n: usize, a: &[f64], b: &mut Buffers) {
    let (l, work, e, p) = (
        b.l.as_mut_ptr(),
        b.work.as_mut_ptr(),
        b.e.as_mut_ptr(),
        b.p.as_mut_ptr(),
    );
    unsafe {
        match method {
            Method::Gmw81 => c_gmw81(a.as_ptr(), n, l, work, e, p),
            Method::Se90 => c_se(0, a.as_ptr(), n, l, e, p),
            Method::Se99 => c_se(1, a.as_ptr(), n, l, e, p),
        }
    }
}

fn rust(method: Method, a: &Array2<f64>) -> (Vec<f64>, Vec<f64>, Vec<usize>) {
    let r = match method {
        Method::Gmw81 => a.mod_cholesky_gmw81(),
        Method::Se90 => a.mod_cholesky_se90(),
        Method::Se99 => a.mod_cholesky_se99(),
    };
    (r.l.into_raw_vec(), r.e.into_raw_vec(), r.p.into_raw_vec())
}

/// SplitMix64, from -1 to 1.
struct Random(u64);

impl Random {
    fn signed(&mut self) -> f64 {
        self.0 = self.0.wrapping_add(0x9e37_79b9_7f4a_7c15);
        let mut z = self.0;
        z = (z ^ (z >> 30)).wrapping_mul(0xbf58_476d_1ce4_e5b9);
        z = (z ^ (z >> 27)).wrapping_mul(0x94d0_49bb_1331_11eb);
        (z ^ (z >> 31)) as i64 as f64 * 2f64.powi(-63)
    }
}

fn symmetric(n: usize, mut entry: impl FnMut(usize, usize) -> f64) -> Vec<f64> {
    let mut a = vec![0.0; n * n];
    for i in 0..n {
        for j in 0..=i {
            a[i * n + j] = entry(i, j);
            a[j * n + i] = a[i * n + j];
        }
    }
    a
}

fn indefinite(n: usize, random: &mut Random) -> Vec<f64> {
    symmetric(n, |_, _| random.signed())
}

/// A matrix times its transpose, and a half more on the diagonal.
fn positive_definite(n: usize, random: &mut Random) -> Vec<f64> {
    let b: Vec<f64> = (0..n * n).map(|_| random.signed()).collect();
    let dot = |i: usize, j: usize| (0..n).map(|k| b[i * n + k] * b[j * n + k]).sum::<f64>();
    symmetric(n, |i, j| dot(i, j) + if i == j { 0.5 } else { 0.0 })
}

const MATRICES: usize = 16;
const RUNS: usize = 60;

/// Microseconds a matrix of one run over the list.
fn time(rounds: usize, mut work: impl FnMut(usize)) -> f64 {
    let start = Instant::now();
    for _ in 0..rounds {
        (0..MATRICES).for_each(&mut work);
    }
    start.elapsed().as_secs_f64() * 1e6 / (rounds * MATRICES) as f64
}

fn same_bits(x: &[f64], y: &[f64]) -> bool {
    x.len() == y.len() && x.iter().zip(y).all(|(u, v)| u.to_bits() == v.to_bits())
}

/// The three must agree bit for bit before they are timed.
fn compare(method: Method, n: usize, a: &[f64]) {
    let (mut b, mut c) = (Buffers::new(n), Buffers::new(n));
    assert!(proved(method, n, a, &mut b), "refused");
    plain_c(method, n, a, &mut c);
    let (l, e, p) = rust(method, &Array2::from_shape_vec((n, n), a.to_vec()).unwrap());
    assert!(
        same_bits(&b.l, &l) && same_bits(&b.e, &e) && b.p == p,
        "the Rust differs"
    );
    assert!(
        same_bits(&b.l, &c.l) && same_bits(&b.e, &c.e) && b.p == c.p,
        "the C differs"
    );
}

/// The three take turns, and the least time of each counts.
fn least(method: Method, n: usize, list: &[Vec<f64>]) -> [f64; 3] {
    let arrays: Vec<Array2<f64>> = list
        .iter()
        .map(|a| Array2::from_shape_vec((n, n), a.clone()).unwrap())
        .collect();
    let mut b = Buffers::new(n);
    let rounds = 480 / n;
    let mut best = [f64::INFINITY; 3];
    for _ in 0..RUNS {
        let ours = time(rounds, |i| {
            black_box(proved(method, n, black_box(&list[i]), &mut b));
        });
        let theirs = time(rounds, |i| {
            black_box(rust(method, black_box(&arrays[i])));
        });
        let c = time(rounds, |i| {
            plain_c(method, n, black_box(&list[i]), &mut b);
            black_box(&b.l);
        });
        for (least, took) in best.iter_mut().zip([ours, theirs, c]) {
            *least = least.min(took);
        }
    }
    best
}

fn report(method: Method, n: usize, kind: &str, list: &[Vec<f64>]) {
    list.iter().for_each(|a| compare(method, n, a));
    let [ours, theirs, c] = least(method, n, list);
    println!(
        "{:5} n {n:2} {kind:17} proved {ours:7.2} us, Rust {theirs:7.2} us, C {c:7.2} us; of the Rust {:4.2}, of the C {:4.2}",
        format!("{method:?}"),
        ours / theirs,
        ours / c
    );
}

fn main() {
    let mut random = Random(1);
    for method in [Method::Gmw81, Method::Se90, Method::Se99] {
        for n in [8, 24, 48] {
            let list: Vec<_> = (0..MATRICES)
                .map(|_| positive_definite(n, &mut random))
                .collect();
            report(method, n, "positive definite", &list);
            let list: Vec<_> = (0..MATRICES).map(|_| indefinite(n, &mut random)).collect();
            report(method, n, "indefinite", &list);
        }
    }
    for n in [8, 24, 48] {
        solve::report(n, &mut random);
    }
}
