use crate::layout::Layout;
use crate::{Array, Array1, Ix1, Ix2, Slicing};
use std::ops::{Index, Mul};

/// The `'static` bound lets the where clauses of the two searches pass as they stand: they name a
/// reference to the element type that nothing else bounds.
pub struct ArrayView<'a, A: 'static, D> {
    pub(crate) data: &'a [A],
    pub(crate) layout: Layout<D>,
}

pub struct ArrayViewMut<'a, A: 'static, D> {
    pub(crate) data: &'a mut [A],
    pub(crate) layout: Layout<D>,
}

impl<A> Index<usize> for ArrayView<'_, A, Ix1> {
    type Output = A;
    fn index(&self, at: usize) -> &A {
        &self.data[self.layout.place(at)]
    }
}

impl<A> Index<(usize, usize)> for ArrayView<'_, A, Ix2> {
    type Output = A;
    fn index(&self, at: (usize, usize)) -> &A {
        &self.data[self.layout.place(at)]
    }
}

impl<A> ArrayView<'_, A, Ix1> {
    pub fn iter(&self) -> impl Iterator<Item = &A> {
        self.layout.places().map(|place| &self.data[place])
    }

    pub fn slice<S: Slicing<Ix1>>(&self, part: S) -> ArrayView<'_, A, S::Out> {
        ArrayView {
            data: self.data,
            layout: part.part(self.layout),
        }
    }

    pub fn fold<'s, B, F: FnMut(B, &'s A) -> B>(&'s self, init: B, f: F) -> B {
        self.iter().fold(init, f)
    }

    pub fn map<'s, B, F: FnMut(&'s A) -> B>(&'s self, f: F) -> Array1<B> {
        self.iter().map(f).collect()
    }
}

impl Mul for &ArrayView<'_, f64, Ix1> {
    type Output = Array1<f64>;
    fn mul(self, other: Self) -> Array1<f64> {
        assert_eq!(self.layout.lens, other.layout.lens);
        self.iter().zip(other.iter()).map(|(x, y)| x * y).collect()
    }
}

/// A row of values, owned or not.
pub trait Source<A> {
    fn values(&self) -> impl Iterator<Item = &A>
    where
        A: 'static;
}

impl<A> Source<A> for ArrayView<'_, A, Ix1> {
    fn values(&self) -> impl Iterator<Item = &A> {
        self.iter()
    }
}

impl<A> Source<A> for Array<A, Ix1> {
    fn values(&self) -> impl Iterator<Item = &A> {
        self.iter()
    }
}

impl<A: Clone> ArrayViewMut<'_, A, Ix1> {
    pub fn assign<S: Source<A>>(&mut self, other: &S) {
        let values: Vec<&A> = other.values().collect();
        assert_eq!(values.len(), self.layout.len());
        for (place, value) in self.layout.places().zip(values) {
            self.store(place, value);
        }
    }

    pub fn fill(&mut self, value: A) {
        for place in self.layout.places() {
            self.store(place, &value);
        }
    }

    fn store(&mut self, place: usize, value: &A) {
        if watch::ON {
            watch::stored(watch::current_step(), value);
        }
        self.data[place] = value.clone();
    }
}
