//! What is seen of a run: its tied step, its phase-two step, the first step of SE90's phase one whose pivot isn't
//! positive, the first step that stored a value that isn't finite, and how many roots on its diagonal rounding
//! changed. One run at a time on each thread.

mod root;

pub use root::is_inexact;

use std::any::Any;
use std::cell::Cell;

/// Whether runs are watched.
pub const ON: bool = !cfg!(feature = "unwatched");

#[derive(Clone, Copy, Debug, Default, PartialEq)]
pub struct Marks {
    pub tied: Option<usize>,
    pub phase_two: Option<usize>,
    /// The first step of SE90's phase one whose pivot, after search and swap, is at or below zero.
    pub not_positive: Option<usize>,
    pub refused: Option<usize>,
    /// 0 in a refused run.
    pub inexact: usize,
}

const NONE: Marks = Marks {
    tied: None,
    phase_two: None,
    not_positive: None,
    refused: None,
    inexact: 0,
};

thread_local! {
    static STEP: Cell<usize> = const { Cell::new(0) };
    static MARKS: Cell<Marks> = const { Cell::new(NONE) };
}

fn update(change: impl FnOnce(&mut Marks)) {
    if !ON {
        return;
    }
    let mut marks = MARKS.get();
    change(&mut marks);
    MARKS.set(marks);
}

/// A run begins; what comes before its first step counts as step 0.
pub fn begin() {
    STEP.set(0);
    MARKS.set(NONE);
}

/// The run is now at step `j`.
pub fn step(j: usize) {
    if ON {
        STEP.set(j);
    }
}

pub fn current_step() -> usize {
    STEP.get()
}

/// A pivot search found its largest value at `places` candidates. Ties in phase two don't count.
pub fn search(places: usize) {
    let step = current_step();
    update(|marks| {
        if places > 1 && marks.phase_two.is_none() {
            marks.tied.get_or_insert(step);
        }
    });
}

/// The pivot of SE90's phase one is `x`, after search and swap.
pub fn pivot(x: f64) {
    let step = current_step();
    update(|marks| {
        if x <= 0.0 {
            marks.not_positive.get_or_insert(step);
        }
    });
}

/// Phase one ends at step `j`.
pub fn phase_two(j: usize) {
    update(|marks| {
        marks.phase_two.get_or_insert(j);
    });
}

/// The root that is taken of `x` on the diagonal.
pub fn root(x: f64) -> f64 {
    if ON && is_inexact(x) {
        update(|marks| marks.inexact += 1);
    }
    x.sqrt()
}

/// The current step stored `value`.
pub fn value(value: f64) {
    stored(current_step(), &value);
}

/// Step `step` stored `value`. The report may come late, so the least such step is kept.
pub fn stored<A: Any>(step: usize, value: &A) {
    let Some(value) = (value as &dyn Any).downcast_ref::<f64>() else {
        return;
    };
    if ON && !value.is_finite() {
        update(|marks| marks.refused = Some(marks.refused.map_or(step, |r| r.min(step))));
    }
}

/// The run's marks. Within a step its search, its pivot and its end of phase one come before its first
/// store, so what was found up to a refused step is what was found at steps not above it.
pub fn end() -> Marks {
    let marks = MARKS.get();
    let last = marks.refused.unwrap_or(usize::MAX);
    let upto = |step: Option<usize>| step.filter(|&j| j <= last);
    Marks {
        tied: upto(marks.tied),
        phase_two: upto(marks.phase_two),
        not_positive: upto(marks.not_positive),
        refused: marks.refused,
        inexact: match marks.refused {
            None => marks.inexact,
            Some(_) => 0,
        },
    }
}

#[cfg(test)]
mod tests {
    use super::*;

    #[test]
    fn marks_after_the_refused_step_are_dropped() {
        begin();
        step(1);
        search(2);
        step(3);
        pivot(0.0);
        phase_two(3);
        stored(2, &f64::NAN);
        assert_eq!(
            end(),
            Marks {
                tied: Some(1),
                refused: Some(2),
                ..NONE
            }
        );
    }

    #[test]
    fn only_the_first_tie_of_phase_one_counts() {
        begin();
        step(2);
        search(1);
        phase_two(2);
        search(2);
        assert_eq!(
            end(),
            Marks {
                phase_two: Some(2),
                ..NONE
            }
        );
    }

    #[test]
    fn the_first_pivot_at_or_below_zero_counts() {
        let met = |pivots: &[f64]| {
            begin();
            for (j, &x) in pivots.iter().enumerate() {
                step(j);
                pivot(x);
            }
            end().not_positive
        };
        assert_eq!(met(&[1.0, f64::from_bits(1), f64::NAN]), None);
        assert_eq!(met(&[1.0, 0.0, -1.0]), Some(1));
        assert_eq!(met(&[-0.0, 1.0]), Some(0));
        assert_eq!(met(&[2.0, 1.0, -f64::from_bits(1)]), Some(2));
        // Its search comes before the stores of the same step.
        stored(2, &f64::NAN);
        assert_eq!(end().not_positive, Some(2));
        stored(1, &f64::NAN);
        assert_eq!(end().not_positive, None);
    }

    #[test]
    fn inexact_roots_of_a_refused_run_are_dropped() {
        begin();
        let roots = [4.0, 2.0, -0.0, 3.0].map(root);
        assert_eq!(roots[..2], [2.0, 2f64.sqrt()]);
        assert_eq!(end().inexact, 2);
        assert!(root(-1.0).is_nan());
        assert_eq!(end().inexact, 2);
        stored(1, &f64::NAN);
        assert_eq!(end().inexact, 0);
    }

    #[test]
    fn other_types_are_never_refused() {
        begin();
        stored(0, &7usize);
        assert_eq!(end(), NONE);
    }
}
