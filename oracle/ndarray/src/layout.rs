//! Where the elements of an array or a view lie in their data.

pub type Ix1 = [usize; 1];
pub type Ix2 = [usize; 2];

/// What may be given as the shape of a new array.
pub trait Shape {
    type Dim;
    fn layout(self) -> Layout<Self::Dim>;
}

#[derive(Clone, Copy, Debug)]
pub struct Layout<D> {
    pub start: usize,
    pub lens: D,
    pub strides: D,
}

impl Shape for usize {
    type Dim = Ix1;
    fn layout(self) -> Layout<Ix1> {
        Layout {
            start: 0,
            lens: [self],
            strides: [1],
        }
    }
}

impl Shape for Ix2 {
    type Dim = Ix2;
    fn layout(self) -> Layout<Ix2> {
        Layout {
            start: 0,
            lens: self,
            strides: [self[1], 1],
        }
    }
}

impl Shape for (usize, usize) {
    type Dim = Ix2;
    fn layout(self) -> Layout<Ix2> {
        [self.0, self.1].layout()
    }
}

impl<const N: usize> Layout<[usize; N]> {
    pub fn len(&self) -> usize {
        self.lens.iter().product()
    }
}

impl Layout<Ix1> {
    pub fn place(&self, i: usize) -> usize {
        assert!(i < self.lens[0], "index {i} of {:?}", self.lens);
        self.start + i * self.strides[0]
    }

    pub fn places(self) -> impl Iterator<Item = usize> {
        (0..self.lens[0]).map(move |i| self.place(i))
    }
}

impl Layout<Ix2> {
    pub fn place(&self, (i, j): (usize, usize)) -> usize {
        assert!(
            i < self.lens[0] && j < self.lens[1],
            "index {i}, {j} of {:?}",
            self.lens
        );
        self.start + i * self.strides[0] + j * self.strides[1]
    }

    pub fn diag(&self) -> Layout<Ix1> {
        Layout {
            start: self.start,
            lens: [self.lens[0].min(self.lens[1])],
            strides: [self.strides[0] + self.strides[1]],
        }
    }
}
