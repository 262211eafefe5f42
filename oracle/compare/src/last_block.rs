//! Two rows that are phase two's last block at once, on which SE90's and SE99's expressions for the
//! last amount give different bits. SE99's tests keep the term that the two round differently some
//! 10^4 times smaller than the eigenvalue it is added to, so such matrices are rare.

use oracle::generate::rng::Rng;

/// How many matrices are tried for each index. One in some 50000 is found.
const TRIES: usize = 1000;

/// By rows.
type Block = [f64; 4];

pub fn search(rng: &mut Rng) -> Option<Block> {
    let mut tries = (0..TRIES).map(|_| draw(rng));
    tries.find(|block| {
        let (se90, se99) = amounts(block);
        se90 != se99
    })
}

/// A diagonal below -mu times the largest ends phase one.
fn draw(rng: &mut Rng) -> Block {
    let a = rng.within(1.0, 2.0);
    let b = a * rng.pick(&[0.0, 0.1]) * rng.unit();
    [a, b, b, -a * rng.within(0.1, 0.12)]
}

/// What each method adds, where the first diagonal entry is gamma.
fn amounts([a, b, c, d]: &Block) -> (f64, f64) {
    let tau = f64::EPSILON.cbrt();
    let middle = (a + d) / 2.0;
    let root = (middle * middle - a * d + b * c).sqrt();
    let (lo, gap) = (middle - root, middle + root - (middle - root));
    let se90 = tau * a.max(1.0 / (1.0 - tau) * gap);
    let se99 = (tau * a).max(tau * gap / (1.0 - tau));
    (-lo + se90, -lo + se99)
}

#[cfg(test)]
mod tests {
    use super::*;
    use oracle::{factor, SE90, SE99};

    #[test]
    fn each_method_adds_its_own_amount() {
        let mut rng = Rng::new(1, 0);
        let found: Vec<Block> = (0..500).filter_map(|_| search(&mut rng)).collect();
        assert!(found.len() > 2);
        for block in found {
            let added = |method: u8| factor(method, 2, &block).e;
            let (se90, se99) = amounts(&block);
            assert_eq!(added(SE90), [se90, se90]);
            assert_eq!(added(SE99), [se99, se99]);
        }
    }
}
