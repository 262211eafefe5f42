/// A matrix that is symmetric by its bits.
#[derive(Clone)]
pub struct Symmetric {
    n: usize,
    a: Vec<f64>,
}

impl Symmetric {
    /// From the lower part: `entry(i, j)` with j at most i.
    pub fn new(n: usize, mut entry: impl FnMut(usize, usize) -> f64) -> Self {
        let mut out = Symmetric {
            n,
            a: vec![0.0; n * n],
        };
        for i in 0..n {
            for j in 0..=i {
                out.set(i, j, entry(i, j));
            }
        }
        out
    }

    /// From n * n entries by rows.
    pub fn from_entries(n: usize, entries: &[f64]) -> Self {
        Symmetric::new(n, |i, j| entries[i * n + j])
    }

    pub fn rows(&self) -> usize {
        self.n
    }

    pub fn get(&self, i: usize, j: usize) -> f64 {
        self.a[i * self.n + j]
    }

    pub fn set(&mut self, i: usize, j: usize, value: f64) {
        self.a[i * self.n + j] = value;
        self.a[j * self.n + i] = value;
    }

    /// A copy with another value at (i, j) and (j, i).
    pub fn with(&self, i: usize, j: usize, value: f64) -> Self {
        let mut out = self.clone();
        out.set(i, j, value);
        out
    }

    /// Row i of the result is row s[i].
    pub fn reloaded(&self, s: &[usize]) -> Self {
        Symmetric::new(self.n, |i, j| self.get(s[i], s[j]))
    }

    pub fn entries(&self) -> &[f64] {
        &self.a
    }

    pub fn into_entries(self) -> Vec<f64> {
        self.a
    }
}
