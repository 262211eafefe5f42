use std::ops::{Index, IndexMut};

/// n rows of n.
pub struct Square {
    n: usize,
    entries: Vec<f64>,
}

impl Square {
    pub fn new(n: usize, entries: &[f64]) -> Self {
        Square {
            n,
            entries: entries.to_vec(),
        }
    }

    /// The diagonal of `other`, else +0.0.
    pub fn diagonal_of(other: &Square) -> Self {
        let mut out = Square::new(other.n, &vec![0.0; other.n * other.n]);
        for i in 0..other.n {
            out[(i, i)] = other[(i, i)];
        }
        out
    }

    /// Rows i and j, then columns i and j.
    pub fn exchange(&mut self, i: usize, j: usize) {
        for k in 0..self.n {
            self.entries.swap(i * self.n + k, j * self.n + k);
        }
        for k in 0..self.n {
            self.entries.swap(k * self.n + i, k * self.n + j);
        }
    }

    /// +0.0 above the diagonal.
    pub fn clear_upper(&mut self) {
        for i in 0..self.n {
            for j in i + 1..self.n {
                self[(i, j)] = 0.0;
            }
        }
    }

    pub fn entries(&self) -> &[f64] {
        &self.entries
    }
}

impl Index<(usize, usize)> for Square {
    type Output = f64;

    fn index(&self, (i, j): (usize, usize)) -> &f64 {
        &self.entries[i * self.n + j]
    }
}

impl IndexMut<(usize, usize)> for Square {
    fn index_mut(&mut self, (i, j): (usize, usize)) -> &mut f64 {
        &mut self.entries[i * self.n + j]
    }
}
