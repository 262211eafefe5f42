//! Microseconds a solution of the proved calls, on doubles and on bytes, beside plain C: by the same steps,
//! and as LAPACK's dpotrs takes them.

use super::{positive_definite, proved, same_bits, time, Buffers, Random, MATRICES, RUNS};
use millracer::{solve, Method};
use std::hint::black_box;

// The package has no call on bytes.
#[allow(dead_code)]
#[path = "../../../bindings/rust/src/ffi.rs"]
mod ffi;

type Plain = unsafe extern "C" fn(*const f64, usize, *const usize, *const f64, *mut f64);

extern "C" {
    fn c_solve(l: *const f64, n: usize, p: *const usize, b: *const f64, y: *mut f64);
    fn c_potrs(l: *const f64, n: usize, p: *const usize, b: *const f64, y: *mut f64);
}

/// The factor by GMW81 of a positive definite matrix, and a right side.
struct System {
    n: usize,
    factor: Buffers,
    order: Vec<u8>,
    b: Vec<f64>,
}

impl System {
    fn new(n: usize, random: &mut Random) -> System {
        let mut factor = Buffers::new(n);
        let a = positive_definite(n, random);
        assert!(proved(Method::Gmw81, n, &a, &mut factor), "refused");
        System {
            n,
            order: factor.p.iter().map(|&row| row as u8).collect(),
            factor,
            b: (0..n).map(|_| random.signed()).collect(),
        }
    }

    fn on_doubles(&self, y: &mut [f64]) -> bool {
        solve(&self.factor.l, self.n, &self.factor.p, &self.b, y).is_ok()
    }

    fn on_bytes(&self, y: &mut [f64]) -> bool {
        let refusal = unsafe {
            ffi::millracer_solve_bytes(
                self.factor.l.as_ptr().cast(),
                8 * self.factor.l.len(),
                self.n,
                self.order.as_ptr(),
                self.n,
                self.b.as_ptr().cast(),
                8 * self.n,
                y.as_mut_ptr().cast(),
                8 * self.n,
            )
        };
        refusal.number == 0
    }

    fn plain(&self, call: Plain, y: &mut [f64]) {
        let (l, p, b) = (&self.factor.l, &self.factor.p, &self.b);
        unsafe { call(l.as_ptr(), self.n, p.as_ptr(), b.as_ptr(), y.as_mut_ptr()) }
    }

    /// The first three by their bits; LAPACK's order rounds otherwise.
    fn compare(&self) {
        let [mut doubles, mut bytes, mut same, mut potrs] = [0; 4].map(|_| vec![0.0; self.n]);
        assert!(
            self.on_doubles(&mut doubles) && self.on_bytes(&mut bytes),
            "refused"
        );
        self.plain(c_solve, &mut same);
        self.plain(c_potrs, &mut potrs);
        assert!(
            same_bits(&doubles, &bytes) && same_bits(&doubles, &same),
            "not the same bits"
        );
        let most = doubles.iter().fold(0.0, |acc: f64, x| acc.max(x.abs()));
        let near = |(x, y): (&f64, &f64)| (x - y).abs() < 1e-9 * most;
        assert!(
            doubles.iter().zip(&potrs).all(near),
            "LAPACK's order is far off"
        );
    }
}

/// The four take turns, and the least time of each counts.
fn least(n: usize, list: &[System]) -> [f64; 4] {
    let mut y = vec![0.0; n];
    let rounds = 4800 / n;
    let mut best = [f64::INFINITY; 4];
    for _ in 0..RUNS {
        let took = [
            time(rounds, |i| {
                black_box(black_box(&list[i]).on_doubles(&mut y));
            }),
            time(rounds, |i| {
                black_box(black_box(&list[i]).on_bytes(&mut y));
            }),
            time(rounds, |i| {
                black_box(&list[i]).plain(c_solve, black_box(&mut y))
            }),
            time(rounds, |i| {
                black_box(&list[i]).plain(c_potrs, black_box(&mut y))
            }),
        ];
        for (least, took) in best.iter_mut().zip(took) {
            *least = least.min(took);
        }
    }
    best
}

pub fn report(n: usize, random: &mut Random) {
    let list: Vec<System> = (0..MATRICES).map(|_| System::new(n, random)).collect();
    list.iter().for_each(System::compare);
    let [doubles, bytes, same, potrs] = least(n, &list);
    println!(
        "solve n {n:2} proved {doubles:5.2} us, on bytes {bytes:5.2} us, C {same:5.2} us, C as dpotrs {potrs:5.2} us; \
         of the C {:4.2}, on bytes {:4.2}; of dpotrs {:4.2}, on bytes {:4.2}",
        doubles / same,
        bytes / same,
        doubles / potrs,
        bytes / potrs
    );
}
