//! Solving with the factor: the calls on bytes and on doubles beside the second implementation, and with
//! the factors of two loadings.

use crate::answer::Answer;
use crate::calls::{called, Called, Outcome};
use crate::load_order::{Alike, Pair};
use crate::port;
use crate::report::Report;
use crate::run::noted;
use oracle::generate::rng::Rng;
use oracle::operands::{doubles, finite_list};
use oracle::record::bytes;
use oracle::second::solve::{solve, Solved, System};
use oracle::systems::{changed, drawn, system};

/// A drawn system, and one with operands changed. The differences.
pub fn draw(n: usize, rng: &mut Rng, report: &mut Report) -> Vec<String> {
    let first = drawn(n, rng);
    let second = changed(drawn(n, rng), rng);
    [compare(&first, report), compare(&second, report)].concat()
}

/// With the port's factor, if its answer has one.
pub fn with_factor(answer: &Answer, rng: &mut Rng, report: &mut Report) -> Vec<String> {
    match answer.refusal {
        0 => {
            report.solve.factored();
            let b = finite_list(answer.p.len(), rng);
            compare(&of_factor(answer, &b), report)
        }
        _ => vec![],
    }
}

fn of_factor(answer: &Answer, b: &[f64]) -> System {
    let l: Vec<f64> = answer.l.iter().map(|&bits| f64::from_bits(bits)).collect();
    system(answer.p.len(), &l, &answer.p, b)
}

pub fn compare(system: &System, report: &mut Report) -> Vec<String> {
    let solved = solve(system);
    report.solve.run(system.n, &solved);
    let said = |words: String| format!("n {}: {words}", system.n);
    let found = noted(calls(system, &solved), report);
    found.into_iter().map(said).collect()
}

/// Both calls beside the same answer.
fn calls(system: &System, solved: &Solved) -> Vec<Called> {
    let wanted = || Outcome {
        refusal: solved.refusal,
        left: solved.y.clone(),
    };
    let on_bytes = called("solve_bytes", on_bytes(system), wanted());
    let on_doubles = on_doubles(system);
    let on_doubles = on_doubles.map(|port| called("solve_doubles", port, wanted()));
    [on_bytes].into_iter().chain(on_doubles).collect()
}

/// An index above 255 as 255.
fn on_bytes(system: &System) -> Outcome {
    let p: Vec<u8> = system.p.iter().map(|&row| row.min(255) as u8).collect();
    let mut y = system.y.clone();
    let refusal = port::solve_bytes(&system.l, system.n, &p, &system.b, &mut y);
    Outcome { refusal, left: y }
}

/// Nothing if an operand is no whole number of doubles.
fn on_doubles(system: &System) -> Option<Outcome> {
    let lists = [&system.l, &system.b, &system.y];
    if lists.iter().any(|list| list.len() % 8 != 0) {
        return None;
    }
    let [l, b, mut y] = lists.map(|list| doubles(list));
    let refusal = port::solve_doubles(&l, system.n, &system.p, &b, &mut y);
    Some(Outcome {
        refusal,
        left: bytes(&y),
    })
}

/// With the factors of two loadings that are alike, the right side's components moving with their
/// contracts: so do the solution's.
pub fn loadings(
    pair: &Pair,
    s: &[usize],
    first: &Answer,
    rng: &mut Rng,
    report: &mut Report,
) -> Option<String> {
    let second = pair.second.as_ref()?;
    if pair.alike != Alike::Complete || (first.refusal, second.refusal) != (0, 0) {
        return None;
    }
    let b = finite_list(s.len(), rng);
    let moved: Vec<f64> = s.iter().map(|&i| b[i]).collect();
    let systems = [of_factor(first, &b), of_factor(second, &moved)];
    let [old, new] = systems.each_ref().map(on_bytes);
    let [old_doubles, new_doubles] = systems.each_ref().map(on_doubles);
    report.solve.pair(old.refusal[0]);
    let alike = is_moved(s, &old, &new) && is_moved(s, &old_doubles?, &new_doubles?);
    (!alike).then(|| format!("reloaded by {s:?}: y"))
}

/// A call refused before its first row leaves what both were lent.
fn is_moved(s: &[usize], old: &Outcome, new: &Outcome) -> bool {
    let (x, y) = (doubles(&old.left), doubles(&new.left));
    let moved = || {
        s.iter()
            .zip(&y)
            .all(|(&i, y)| x[i].to_bits() == y.to_bits())
    };
    old.refusal == new.refusal
        && match old.refusal[0] {
            0 | 9 => moved(),
            _ => old.left == new.left,
        }
}

#[cfg(test)]
mod tests {
    use super::*;
    use std::collections::BTreeSet;

    #[test]
    fn every_refusal_of_both_calls_occurs() {
        let mut rng = Rng::new(1, 0);
        let mut seen = BTreeSet::new();
        for n in (1..=6).cycle().take(1500) {
            let system = changed(drawn(n, &mut rng), &mut rng);
            for called in calls(&system, &solve(&system)) {
                assert_eq!(called.difference, None);
                seen.insert((called.call, called.refusal));
            }
        }
        let all = ["solve_bytes", "solve_doubles"]
            .iter()
            .flat_map(|&call| [0, 3, 4, 5, 6, 7, 9, 14, 15].map(|refusal| (call, refusal)));
        assert_eq!(seen, all.collect());
    }

    #[test]
    fn a_component_moves_with_its_contract() {
        let outcome = |number: usize, y: [f64; 3]| Outcome {
            refusal: [number, 0, 0],
            left: bytes(&y),
        };
        let s = [1, 2, 0];
        let (old, new) = ([1.0, 0.0, 3.0], [0.0, 3.0, 1.0]);
        assert!(is_moved(&s, &outcome(0, old), &outcome(0, new)));
        assert!(!is_moved(&s, &outcome(0, old), &outcome(0, old)));
        assert!(!is_moved(
            &s,
            &outcome(0, old),
            &outcome(0, [-0.0, 3.0, 1.0])
        ));
        assert!(!is_moved(&s, &outcome(0, old), &outcome(9, new)));
        assert!(is_moved(&s, &outcome(15, old), &outcome(15, old)));
    }
}
