use super::*;
use crate::second::{judged, Judged};
use crate::{factor, is_accepted, Answer, COMPLETE, NOT_FINITE, SE90};

fn made(kind: Kind, method: u8, n: usize, step: usize) -> Vec<f64> {
    let mut rng = Rng::new(1, (n * 100 + step) as u64);
    matrix(kind, method, n, step, &mut rng)
}

fn answer(kind: Kind, method: u8, n: usize, step: usize) -> Answer {
    crate::answer(method, n, &made(kind, method, n, step), None)
}

#[test]
fn cases_are_accepted_and_the_same_again() {
    for (first, second) in cases(1500, 9, 7).zip(cases(1500, 9, 7)) {
        assert!(is_accepted(first.n, &first.matrix), "{first:?}");
        let bits = |case: &Case| case.matrix.iter().map(|x| x.to_bits()).collect::<Vec<_>>();
        assert_eq!(bits(&first), bits(&second));
    }
}

#[test]
fn sizes_and_steps_are_all_visited() {
    let mut seen: Vec<_> = (0..10).map(|turn| size_and_step(turn, 4, 3)).collect();
    seen.sort();
    let all: Vec<_> = (1..=4)
        .flat_map(|n| (0..n).map(move |step| (n, step)))
        .collect();
    assert_eq!(seen, all);
}

#[test]
fn phase_two_is_entered_at_each_step() {
    for n in [1, 2, 3, 4, 5, 8, 20, 48] {
        for (step, method) in (0..n).flat_map(|step| [(step, SE90), (step, SE99)]) {
            let answer = answer(PhaseTwoAtStep, method, n, step);
            assert_eq!(answer.phase_two, Some(step), "{method} {n}");
        }
    }
}

/// Whatever the method.
#[test]
fn se90_meets_a_pivot_at_or_below_zero_at_each_step() {
    for (n, method) in [1, 2, 3, 4, 5, 8, 20, 48]
        .into_iter()
        .flat_map(|n| (GMW81..=SE99).map(move |method| (n, method)))
    {
        for step in 0..n {
            let a = made(PivotNotPositive, method, n, step);
            let found = judged(SE90, n, &a, None);
            assert_eq!(found.not_positive, Some(step), "{method} {n}");
            assert_eq!(found.answer.phase_two, Some(step));
        }
    }
}

#[test]
fn the_list_of_pivots_has_every_n_and_its_ends() {
    let list = pivot_list();
    let met = |case: &Case| judged(SE90, case.n, &case.matrix, None).not_positive;
    let found: Vec<_> = list.iter().map(|case| (case.n, met(case))).collect();
    assert!((1..=48).all(|n| [0, n / 2, n - 1]
        .iter()
        .all(|&s| found.contains(&(n, Some(s))))));
    assert_eq!(found.len(), 1 + 2 + 46 * 3);
}

#[derive(Debug, PartialEq, Eq, PartialOrd, Ord)]
enum Place {
    First,
    Between,
    Last,
}
use Place::*;

/// Where the pivot is met, whether its search is tied, whether the run is complete, and whether the Rust's own test
/// ends phase one there.
fn sort_of(n: usize, a: &[f64]) -> (Place, bool, bool, bool) {
    let Judged {
        answer,
        not_positive,
        ..
    } = judged(SE90, n, a, None);
    let place = match not_positive {
        Some(0) => First,
        Some(step) if step + 1 == n => Last,
        _ => Between,
    };
    let tied = answer.tied == not_positive;
    let same = factor(SE90, n, a).phase_two == not_positive;
    (place, tied, answer.refusal == COMPLETE, same)
}

#[test]
fn every_sort_of_pivot_at_or_below_zero_occurs() {
    let aims = (1..=6).flat_map(|n| (0..n).map(move |step| (n, step)));
    let all = aims.flat_map(|aim| (0..60).map(move |seed| (aim, seed)));
    let sorts = all.map(|((n, step), seed)| {
        let a = matrix(PivotNotPositive, SE90, n, step, &mut Rng::new(seed, 0));
        sort_of(n, &a)
    });
    let mut wanted = BTreeSet::new();
    for (tied, same) in [(false, false), (false, true), (true, false), (true, true)] {
        wanted.extend([First, Between].map(|place| (place, tied, true, same)));
        wanted.insert((Between, tied, false, same));
    }
    wanted.insert((First, true, false, false));
    // One candidate is left.
    wanted.insert((Last, false, true, false));
    assert_eq!(sorts.collect::<BTreeSet<_>>(), wanted);
}

#[test]
fn runs_are_refused_at_each_step() {
    for n in [1, 2, 3, 4, 5, 8, 20, 48] {
        for method in GMW81..=SE99 {
            // SE90 and SE99 aren't refused at a last step but the first.
            let steps = if method != GMW81 && n > 1 { n - 1 } else { n };
            for step in 0..steps {
                let answer = answer(RefusedAtStep, method, n, step);
                assert_eq!(
                    (answer.refusal, answer.step),
                    (NOT_FINITE, step),
                    "{method} {n}"
                );
            }
        }
    }
}

#[test]
fn overflows_come_half_way() {
    for n in [3, 4, 8, 20] {
        for method in GMW81..=SE99 {
            for step in 1..n - 1 {
                let answer = answer(OverflowHalfWay, method, n, step);
                assert_eq!(
                    (answer.refusal, answer.step),
                    (NOT_FINITE, step),
                    "{method} {n}"
                );
            }
        }
    }
}

#[test]
fn rounding_ties_at_each_step() {
    for n in [3, 4, 8, 20, 48] {
        for method in GMW81..=SE99 {
            for step in 1..n - 1 {
                let answer = answer(TiedByRounding, method, n, step);
                assert_eq!(answer.tied, Some(step), "{method} {n}");
            }
        }
    }
}

#[test]
fn few_cases_reach_every_method_and_step() {
    let answers: Vec<(u8, Answer)> = cases(300, 4, 1)
        .map(|c| (c.method, crate::answer(c.method, c.n, &c.matrix, None)))
        .collect();
    let any = |method: u8, test: &dyn Fn(&Answer) -> bool| {
        answers
            .iter()
            .any(|(m, answer)| *m == method && test(answer))
    };
    for method in GMW81..=SE99 {
        let phase_two_steps = [0, 4, 4][usize::from(method - GMW81)];
        let refused_steps = [4, 3, 3][usize::from(method - GMW81)];
        assert!((0..3).all(|j| any(method, &|a| a.tied == Some(j))));
        assert!((0..phase_two_steps).all(|j| any(method, &|a| a.phase_two == Some(j))));
        assert!(
            (0..refused_steps).all(|j| any(method, &|a| a.refusal == NOT_FINITE && a.step == j))
        );
    }
}
