//! Documents 01's and 02's checks on the operands of a call, each as the refusal it gives.

use crate::port::Refusal;

pub type Checked = Result<(), Refusal>;

const MAX_N: usize = 48;

fn demand(holds: bool, refusal: Refusal) -> Checked {
    if holds {
        Ok(())
    } else {
        Err(refusal)
    }
}

pub fn method(number: usize) -> Checked {
    demand((1..=3).contains(&number), [2, 0, 0])
}

pub fn size(n: usize) -> Checked {
    demand((1..=MAX_N).contains(&n), [3, 0, 0])
}

pub fn something_to_search(list: &[u8]) -> Checked {
    demand(!list.is_empty(), [3, 0, 0])
}

pub fn whole_doubles(list: &[u8]) -> Checked {
    demand(list.len() % 8 == 0, [4, 0, 0])
}

pub fn matrix_length(matrix: &[u8], n: usize) -> Checked {
    demand(matrix.len() == 8 * n * n, [4, 0, 0])
}

/// In bytes, four a number.
pub fn numbers_length(numbers: &[u8], n: usize) -> Checked {
    demand(numbers.len() == 4 * n, [12, 0, 0])
}

pub fn distinct(numbers: &[u32]) -> Checked {
    let came_before = |at: usize| numbers[..at].contains(&numbers[at]);
    let first = (0..numbers.len()).find(|&at| came_before(at));
    first.map_or(Ok(()), |position| Err([13, position, 0]))
}

/// In bytes.
pub fn buffer_length(buffer: &[u8], wanted: usize) -> Checked {
    demand(buffer.len() == wanted, [5, 0, 0])
}

pub fn indexes(list: &[usize], n: usize) -> Checked {
    let first = list.iter().position(|&index| index >= n);
    first.map_or(Ok(()), |position| Err([6, position, 0]))
}

pub fn finite_list(list: &[f64]) -> Checked {
    let first = list.iter().position(|x| !x.is_finite());
    first.map_or(Ok(()), |position| Err([7, position, 0]))
}

pub fn finite_matrix(matrix: &[f64], n: usize) -> Checked {
    let first = matrix.iter().position(|x| !x.is_finite());
    first.map_or(Ok(()), |at| Err([7, at / n, at % n]))
}

pub fn symmetric(matrix: &[f64], n: usize) -> Checked {
    let bits = |i: usize, j: usize| matrix[i * n + j].to_bits();
    let mut pairs = (0..n).flat_map(|i| (i + 1..n).map(move |j| (i, j)));
    let first = pairs.find(|&(i, j)| bits(i, j) != bits(j, i));
    first.map_or(Ok(()), |(i, j)| Err([8, i, j]))
}

/// Refusal 9.
pub fn stored_finite(values: &[f64], step: usize) -> Checked {
    demand(values.iter().all(|x| x.is_finite()), [9, step, 0])
}
