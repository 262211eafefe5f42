use crate::layout::{Layout, Shape};
use crate::{ArrayView, ArrayViewMut, Ix1, Ix2, Slicing};
use num::traits::identities::{One, Zero};
use std::cell::Cell;
use std::ops::{Index, IndexMut};

/// `written` is the place last handed out for writing, and the step: what was stored there is
/// reported when the array is next used or dropped.
#[derive(Debug)]
pub struct Array<A: 'static, D> {
    data: Vec<A>,
    layout: Layout<D>,
    written: Cell<Option<(usize, usize)>>,
}

#[derive(Debug)]
pub struct ShapeError;

impl<A, D> Array<A, D> {
    fn new(data: Vec<A>, layout: Layout<D>) -> Self {
        Array {
            data,
            layout,
            written: Cell::new(None),
        }
    }

    fn report(&self) {
        if !watch::ON {
            return;
        }
        if let Some((place, step)) = self.written.take() {
            watch::stored(step, &self.data[place]);
        }
    }

    fn data(&self) -> &[A] {
        self.report();
        &self.data
    }

    fn data_mut(&mut self) -> &mut [A] {
        self.report();
        &mut self.data
    }

    fn store(&mut self, place: usize) -> &mut A {
        self.report();
        if watch::ON {
            self.written.set(Some((place, watch::current_step())));
        }
        &mut self.data[place]
    }

    pub fn into_raw_vec(mut self) -> Vec<A> {
        self.report();
        std::mem::take(&mut self.data)
    }
}

impl<A, D> Drop for Array<A, D> {
    fn drop(&mut self) {
        self.report();
    }
}

impl<A: Clone, D: Copy> Clone for Array<A, D> {
    fn clone(&self) -> Self {
        Array::new(self.data().to_vec(), self.layout)
    }
}

impl<A, const N: usize> Array<A, [usize; N]> {
    pub fn zeros<S: Shape<Dim = [usize; N]>>(shape: S) -> Self
    where
        A: Clone + Zero,
    {
        let layout = shape.layout();
        Array::new(vec![A::zero(); layout.len()], layout)
    }

    pub fn ones<S: Shape<Dim = [usize; N]>>(shape: S) -> Self
    where
        A: Clone + One,
    {
        let layout = shape.layout();
        Array::new(vec![A::one(); layout.len()], layout)
    }

    pub fn from_shape_vec<S>(shape: S, data: Vec<A>) -> Result<Self, ShapeError>
    where
        S: Shape<Dim = [usize; N]>,
    {
        let layout = shape.layout();
        if data.len() == layout.len() {
            Ok(Array::new(data, layout))
        } else {
            Err(ShapeError)
        }
    }

    pub fn raw_dim(&self) -> [usize; N] {
        self.layout.lens
    }

    pub fn slice<S: Slicing<[usize; N]>>(&self, part: S) -> ArrayView<'_, A, S::Out> {
        ArrayView {
            data: self.data(),
            layout: part.part(self.layout),
        }
    }

    pub fn slice_mut<S: Slicing<[usize; N]>>(&mut self, part: S) -> ArrayViewMut<'_, A, S::Out> {
        let layout = part.part(self.layout);
        ArrayViewMut {
            data: self.data_mut(),
            layout,
        }
    }
}

impl<A> Array<A, Ix1> {
    #[allow(clippy::should_implement_trait)]
    pub fn from_iter<I: IntoIterator<Item = A>>(values: I) -> Self {
        let data: Vec<A> = values.into_iter().collect();
        let layout = data.len().layout();
        Array::new(data, layout)
    }

    pub fn iter(&self) -> impl Iterator<Item = &A> {
        self.data().iter()
    }

    pub fn swap(&mut self, i: usize, j: usize) {
        self.data_mut().swap(i, j);
    }
}

impl Array<f64, Ix1> {
    pub fn sum(&self) -> f64 {
        self.iter().fold(0.0, |total, x| total + x)
    }
}

impl<A> FromIterator<A> for Array<A, Ix1> {
    fn from_iter<I: IntoIterator<Item = A>>(values: I) -> Self {
        Array::<A, Ix1>::from_iter(values)
    }
}

impl<A> Index<usize> for Array<A, Ix1> {
    type Output = A;
    fn index(&self, at: usize) -> &A {
        &self.data()[at]
    }
}

impl<A> IndexMut<usize> for Array<A, Ix1> {
    fn index_mut(&mut self, at: usize) -> &mut A {
        self.store(at)
    }
}

impl<A> Array<A, Ix2> {
    pub fn eye(n: usize) -> Self
    where
        A: Clone + Zero + One,
    {
        let mut out = Array::zeros((n, n));
        for i in 0..n {
            out[(i, i)] = A::one();
        }
        out
    }

    pub fn is_square(&self) -> bool {
        self.layout.lens[0] == self.layout.lens[1]
    }

    pub fn diag(&self) -> ArrayView<'_, A, Ix1> {
        ArrayView {
            data: self.data(),
            layout: self.layout.diag(),
        }
    }

    pub fn diag_mut(&mut self) -> ArrayViewMut<'_, A, Ix1> {
        let layout = self.layout.diag();
        ArrayViewMut {
            data: self.data_mut(),
            layout,
        }
    }

    pub fn indexed_iter(&self) -> impl Iterator<Item = ((usize, usize), &A)> {
        let columns = self.layout.lens[1];
        let at = move |place| (place / columns, place % columns);
        self.data()
            .iter()
            .enumerate()
            .map(move |(place, x)| (at(place), x))
    }

    pub fn swap(&mut self, i: (usize, usize), j: (usize, usize)) {
        let (i, j) = (self.layout.place(i), self.layout.place(j));
        self.data_mut().swap(i, j);
    }
}

impl Array<f64, Ix2> {
    /// The product counts as stored, since it is what the caller keeps.
    pub fn dot(&self, other: &Self) -> Self {
        let ([rows, inner], [other_rows, columns]) = (self.raw_dim(), other.raw_dim());
        assert_eq!(inner, other_rows);
        let mut out = Array::zeros((rows, columns));
        for i in 0..rows {
            for j in 0..columns {
                out[(i, j)] = (0..inner).fold(0.0, |sum, k| sum + self[(i, k)] * other[(k, j)]);
            }
        }
        out
    }
}

impl<A> Index<(usize, usize)> for Array<A, Ix2> {
    type Output = A;
    fn index(&self, at: (usize, usize)) -> &A {
        &self.data()[self.layout.place(at)]
    }
}

impl<A> IndexMut<(usize, usize)> for Array<A, Ix2> {
    fn index_mut(&mut self, at: (usize, usize)) -> &mut A {
        let place = self.layout.place(at);
        self.store(place)
    }
}
