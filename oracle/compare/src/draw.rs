//! The matrices to be compared. An index gives the same one for the same seed, whatever the count.

use oracle::generate::rng::Rng;
use oracle::generate::{matrix, Case, KINDS};
use oracle::{GMW81, SE99};

/// The methods take turns, and with each method the kinds.
pub fn case(index: u64, rng: &mut Rng) -> Case {
    let methods = u64::from(SE99);
    let method = GMW81 + (index % methods) as u8;
    let kind = KINDS[(index / methods) as usize % KINDS.len()];
    let n = size(rng);
    let step = rng.below(n);
    let matrix = matrix(kind, method, n, step, rng);
    Case {
        kind,
        method,
        n,
        matrix,
    }
}

/// Every n from 1 to 48; the work grows with its cube, so small ones are frequent.
fn size(rng: &mut Rng) -> usize {
    match rng.below(100) {
        0..=44 => 1 + rng.below(8),
        45..=74 => 9 + rng.below(8),
        75..=91 => 17 + rng.below(16),
        _ => 33 + rng.below(16),
    }
}

#[cfg(test)]
mod tests {
    use super::*;

    #[test]
    fn every_n_is_drawn() {
        let mut rng = Rng::new(1, 0);
        let mut seen = [0; 49];
        (0..5000).for_each(|_| seen[size(&mut rng)] += 1);
        assert!(seen[1..].iter().all(|&times| times > 10), "{seen:?}");
    }
}
