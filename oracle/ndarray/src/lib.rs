//! Stand-in for the types and calls of `ndarray` that the listed Rust files use. `sum` and `dot`
//! add left to right from +0.0. Every store of a double is reported to `watch`; swaps aren't stores.

mod layout;
mod owned;
mod slice;
mod view;

pub use layout::{Ix1, Ix2, Shape};
pub use owned::{Array, ShapeError};
pub use slice::Slicing;
pub use view::{ArrayView, ArrayViewMut, Source};

use std::marker::PhantomData;

pub type Array1<A> = Array<A, Ix1>;
pub type Array2<A> = Array<A, Ix2>;
pub type ArrayView1<'a, A> = ArrayView<'a, A, Ix1>;
pub type ArrayView2<'a, A> = ArrayView<'a, A, Ix2>;

/// Named in where clauses only, as are `ViewRepr` and both traits.
pub struct OwnedRepr<A>(PhantomData<A>);
pub struct ViewRepr<A>(PhantomData<A>);

pub trait RawData {
    type Elem;
}

pub trait Data: RawData {}

impl<A> RawData for OwnedRepr<A> {
    type Elem = A;
}

impl<A> Data for OwnedRepr<A> {}

impl<A> RawData for ViewRepr<&A> {
    type Elem = A;
}

impl<A> Data for ViewRepr<&A> {}

/// The indexes and ranges of a slice, as a tuple.
#[macro_export]
macro_rules! s {
    ($($part:expr),+ $(,)?) => {
        ($($part,)+)
    };
}

#[cfg(test)]
mod tests;
