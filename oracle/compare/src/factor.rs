//! The calls of a factorization on lent buffers, without numbers and with: on bytes and on doubles.

use crate::calls::{called, refusal, Called, Outcome};
use crate::checks::{self, Checked};
use crate::port::{self, Buffers, Factored};
use oracle::generate::rng::Rng;
use oracle::generate::Case;
use oracle::numbered::Numbered;
use oracle::operands::{change_entry, doubles, filling, not_finite, resize, words};
use oracle::record::{bytes, number_bytes, Reply};

const NONE: usize = 255;

pub struct Operands {
    method: usize,
    a: Vec<u8>,
    n: usize,
    /// In a numbered call.
    numbers: Option<Vec<u8>>,
    lent: Buffers<u8, u8>,
}

impl Operands {
    pub fn of_case(case: &Case) -> Self {
        Operands::new(case.method, case.n, &case.matrix, None)
    }

    pub fn numbered(made: &Numbered) -> Self {
        let numbers = number_bytes(&made.numbers);
        Operands::new(made.method, made.n, &made.matrix, Some(numbers))
    }

    fn new(method: u8, n: usize, matrix: &[f64], numbers: Option<Vec<u8>>) -> Self {
        Operands {
            method: method.into(),
            a: bytes(matrix),
            n,
            numbers,
            lent: Buffers {
                l: filling(8 * n * n),
                work: filling(8 * n * n),
                e: filling(8 * n),
                p: vec![77; n],
            },
        }
    }

    fn on_bytes(&self) -> Outcome {
        let mut lent = self.lent.clone();
        let (method, a, n) = (self.method, &self.a, self.n);
        let answer = match &self.numbers {
            None => port::factor_bytes(method, a, n, &mut lent),
            Some(numbers) => port::factor_numbered_bytes(method, a, n, numbers, &mut lent),
        };
        outcome(answer, &lent)
    }

    fn has_whole_elements(&self) -> bool {
        let Buffers { l, work, e, .. } = &self.lent;
        let numbers = self.numbers.as_deref().unwrap_or_default();
        numbers.len() % 4 == 0 && [&self.a, l, work, e].iter().all(|x| x.len() % 8 == 0)
    }

    /// Nothing if an operand is no whole number of doubles, or of numbers.
    fn on_doubles(&self) -> Option<Outcome> {
        if !self.has_whole_elements() {
            return None;
        }
        let Buffers { l, work, e, p } = &self.lent;
        let mut lent = Buffers {
            l: doubles(l),
            work: doubles(work),
            e: doubles(e),
            p: p.iter().map(|&row| row.into()).collect(),
        };
        let (method, a, n) = (self.method, &doubles(&self.a), self.n);
        let numbers = self.numbers.as_deref().map(words);
        let answer = match numbers {
            None => port::factor_doubles(method, a, n, &mut lent),
            Some(numbers) => port::factor_numbered_doubles(method, a, n, &numbers, &mut lent),
        };
        let Buffers { l, work, e, p } = lent;
        let (l, work, e) = (bytes(&l), bytes(&work), bytes(&e));
        Some(outcome(answer, &Buffers { l, work, e, p }))
    }

    fn checks(&self) -> Checked {
        let (n, lent) = (self.n, &self.lent);
        checks::method(self.method)?;
        checks::size(n)?;
        checks::matrix_length(&self.a, n)?;
        if let Some(numbers) = &self.numbers {
            checks::numbers_length(numbers, n)?;
            checks::distinct(&words(numbers))?;
        }
        checks::buffer_length(&lent.l, 8 * n * n)?;
        checks::buffer_length(&lent.work, 8 * n * n)?;
        checks::buffer_length(&lent.e, 8 * n)?;
        checks::buffer_length(&lent.p, n)?;
        let matrix = doubles(&self.a);
        checks::finite_matrix(&matrix, n)?;
        checks::symmetric(&matrix, n)
    }

    /// Both calls beside the same answer.
    fn called<P: Copy + Into<usize>>(
        &self,
        answer: Factored,
        left: &Buffers<u8, P>,
    ) -> Vec<Called> {
        let wanted = || outcome(answer, left);
        let [bytes, doubles] = match self.numbers {
            None => ["factor_bytes", "factor_doubles"],
            Some(_) => ["factor_numbered_bytes", "factor_numbered_doubles"],
        };
        let on_bytes = called(bytes, self.on_bytes(), wanted());
        let on_doubles = self.on_doubles();
        let on_doubles = on_doubles.map(|port| called(doubles, port, wanted()));
        [on_bytes].into_iter().chain(on_doubles).collect()
    }
}

/// The marks, then the buffers, p in whole numbers.
fn outcome<P: Copy + Into<usize>>((refusal, marks): Factored, lent: &Buffers<u8, P>) -> Outcome {
    let whole = |list: &[usize]| {
        list.iter()
            .flat_map(|x| x.to_le_bytes())
            .collect::<Vec<u8>>()
    };
    let p: Vec<usize> = lent.p.iter().map(|&row| row.into()).collect();
    Outcome {
        refusal,
        left: [&whole(&marks), &lent.l, &lent.work, &lent.e, &whole(&p)[..]].concat(),
    }
}

/// On the operands of a run, with the oracle's answer to it.
pub fn accepted(operands: &Operands, reply: &Reply) -> Vec<Called> {
    let n = operands.n;
    let mark = |step: Option<usize>| step.unwrap_or(NONE);
    let (l, e, p) = match &reply.outcome {
        Ok(answer) => (bytes(&answer.l), bytes(&answer.e), answer.p.clone()),
        Err(_) => (vec![0; 8 * n * n], vec![0; 8 * n], (0..n).collect()),
    };
    let work = vec![0; 8 * n * n];
    let marks = [mark(reply.tied), mark(reply.phase_two), reply.inexact()];
    operands.called((refusal(reply), marks), &Buffers { l, work, e, p })
}

/// With one or two operands changed; nothing if they are accepted all the same.
pub fn refused(mut operands: Operands, rng: &mut Rng) -> Vec<Called> {
    for _ in 0..1 + rng.below(2) {
        change(&mut operands, rng);
    }
    match operands.checks() {
        Ok(()) => vec![],
        Err(refusal) => operands.called((refusal, [NONE, NONE, 0]), &operands.lent),
    }
}

fn change(operands: &mut Operands, rng: &mut Rng) {
    if let Some(numbers) = &mut operands.numbers {
        if rng.below(3) == 0 {
            return change_numbers(numbers, rng);
        }
    }
    let n = operands.n;
    let lent = &mut operands.lent;
    match rng.below(9) {
        0 => operands.method = rng.pick(&[0, 4, 257, usize::MAX]),
        1 => operands.n = rng.pick(&[0, 49, usize::MAX, n.saturating_sub(1), n.saturating_add(1)]),
        2 => resize(&mut operands.a, 0, rng),
        3 => resize(&mut lent.l, 5, rng),
        4 => resize(&mut lent.work, 5, rng),
        5 => resize(&mut lent.e, 5, rng),
        6 => resize(&mut lent.p, 5, rng),
        7 => change_entry(&mut operands.a, |_, rng| not_finite(rng), rng),
        _ => change_entry(&mut operands.a, |x, _| -x, rng),
    }
}

/// Another length, or a number that stands there twice.
fn change_numbers(numbers: &mut Vec<u8>, rng: &mut Rng) {
    let len = numbers.len();
    if rng.coin() {
        let lengths = [
            0,
            len.saturating_sub(1),
            len + 1,
            len.saturating_sub(4),
            len + 4,
        ];
        return numbers.resize(rng.pick(&lengths), 5);
    }
    let count = len / 4;
    if count > 0 {
        let (from, to) = (4 * rng.below(count), 4 * rng.below(count));
        numbers.copy_within(from..from + 4, to);
    }
}

#[cfg(test)]
mod tests {
    use super::*;
    use crate::draw;
    use oracle::record::{matrix_record, reply};
    use std::collections::BTreeSet;

    /// What occurs of 1000 operands.
    fn seen(
        operands: impl Fn(u64, &mut Rng) -> (Operands, Reply),
    ) -> BTreeSet<(&'static str, usize)> {
        let mut seen = BTreeSet::new();
        for index in 0..1000 {
            let mut rng = Rng::new(1, index);
            let (operands, reply) = operands(index, &mut rng);
            for called in [accepted(&operands, &reply), refused(operands, &mut rng)].concat() {
                assert_eq!(called.difference, None);
                seen.insert((called.call, called.refusal));
            }
        }
        seen
    }

    #[test]
    fn every_refusal_of_both_calls_occurs() {
        let seen = seen(|index, rng| {
            let case = draw::case(index, rng);
            let record = matrix_record(case.method, case.n as u8, &case.matrix);
            (Operands::of_case(&case), reply(&record))
        });
        let all = ["factor_bytes", "factor_doubles"]
            .iter()
            .flat_map(|&call| [0, 2, 3, 4, 5, 7, 8, 9].map(|refusal| (call, refusal)));
        assert_eq!(seen, all.collect());
    }

    #[test]
    fn every_refusal_of_both_numbered_calls_occurs() {
        let seen = seen(|index, rng| {
            let made = Numbered::of_case(&draw::case(index, rng), rng);
            (Operands::numbered(&made), reply(&made.record()))
        });
        let all = ["factor_numbered_bytes", "factor_numbered_doubles"]
            .iter()
            .flat_map(|&call| [0, 2, 3, 4, 5, 7, 8, 9, 12, 13].map(|refusal| (call, refusal)));
        assert_eq!(seen, all.collect());
    }
}
