//! Factors an indefinite matrix by SE99, solves with the factor and prints L, e, p and y; then shows a refusal,
//! a tie with and without contract numbers, and what is broken in records.

use millracer::{mod_cholesky_gmw81, mod_cholesky_numbered, mod_cholesky_se99, record_answer};
use millracer::{Decomposition, Method, Refusal};

const N: usize = 3;

fn row(values: &[f64]) -> String {
    values.iter().map(|x| format!(" {x:9.6}")).collect()
}

fn step(found: Option<usize>) -> String {
    found.map_or("none".to_string(), |step| step.to_string())
}

fn factor(a: &[f64], b: &[f64]) {
    match mod_cholesky_se99(a, N) {
        Ok(d) => {
            for values in d.l.chunks(N) {
                println!("L{}", row(values));
            }
            println!("e{}", row(&d.e));
            println!("p {} {} {}", d.p[0], d.p[1], d.p[2]);
            println!("tied step {}", step(d.tied));
            println!("phase-two step {}", step(d.phase2));
            println!("{} of {N} roots inexact", d.inexact);
            match d.solve(b) {
                Ok(y) => println!("y{}", row(&y)),
                Err(refusal) => println!("{}", number_and_place(refusal)),
            }
        }
        Err(refusal) => println!("{}", number_and_place(refusal)),
    }
}

fn number_and_place(refusal: Refusal) -> String {
    let (row, column) = refusal.place();
    format!("refusal {} at {row}, {column}", refusal.number())
}

fn pivots(found: Result<Decomposition, Refusal>) -> String {
    match found {
        Ok(d) => format!(
            "p {} {} {}, tied step {}",
            d.p[0],
            d.p[1],
            d.p[2],
            step(d.tied)
        ),
        Err(refusal) => number_and_place(refusal),
    }
}

fn numbered(a: &[f64], numbers: [u32; N]) {
    let [x, y, z] = numbers;
    let found = mod_cholesky_numbered(Method::Gmw81, a, N, &numbers);
    println!("numbers {x} {y} {z}: {}", pivots(found));
}

fn answer(record: &[u8]) {
    if let Err(refusal) = record_answer(record).outcome {
        println!("{refusal}");
    }
}

fn main() {
    // The column of contract 1, for which nothing is added.
    let b = [2.0, 4.0, 1.5];
    factor(&[1.0, 2.0, 0.5, 2.0, 4.0, 1.5, 0.5, 1.5, 0.5], &b);
    factor(&[1.0, 2.0, 0.5, 2.0, 4.0, 1.5, 0.5, 1.25, 0.5], &b);
    // After the first swap contract 0 stands last, so that the first in position is contract 1.
    let tied = [1.0, 0.0, 0.0, 0.0, 1.0, 0.0, 0.0, 0.0, 3.0];
    println!("no numbers: {}", pivots(mod_cholesky_gmw81(&tied, N)));
    numbered(&tied, [0, 1, 2]);
    numbered(&tied, [7, 5, 6]);
    numbered(&tied, [7, 5, 7]);
    answer(&[1, 1, 0, 1, 2, 1, 0, 3, 3, 8, 0, 0, 0, 0]);
    answer(&[1, 1, 0, 1, 3, 8, 0, 0, 0, 0, 0, 0, 0, 0x10, 0x40]);
    answer(&[1, 1, 0, 1, 2, 1, 0, 3, 2, 1, 0, 3]);
}
