//! The parts of an array that `s!` names.

use crate::layout::Layout;
use crate::{Ix1, Ix2};
use std::ops::{Range, RangeFrom};

/// A range of one axis.
pub trait Span {
    fn bounds(self, len: usize) -> (usize, usize);
}

impl Span for Range<usize> {
    fn bounds(self, _: usize) -> (usize, usize) {
        (self.start, self.end)
    }
}

impl Span for RangeFrom<usize> {
    fn bounds(self, len: usize) -> (usize, usize) {
        (self.start, len)
    }
}

/// A tuple made by `s!`, applied to an array of dimension `D`.
pub trait Slicing<D> {
    type Out;
    fn part(self, of: Layout<D>) -> Layout<Self::Out>;
}

impl<R: Span> Slicing<Ix1> for (R,) {
    type Out = Ix1;
    fn part(self, of: Layout<Ix1>) -> Layout<Ix1> {
        span(self.0, of)
    }
}

impl<R: Span> Slicing<Ix2> for (usize, R) {
    type Out = Ix1;
    fn part(self, of: Layout<Ix2>) -> Layout<Ix1> {
        span(self.1, row(of, self.0))
    }
}

impl<R: Span> Slicing<Ix2> for (R, usize) {
    type Out = Ix1;
    fn part(self, of: Layout<Ix2>) -> Layout<Ix1> {
        span(self.0, row(transposed(of), self.1))
    }
}

impl<R: Span, S: Span> Slicing<Ix2> for (R, S) {
    type Out = Ix2;
    fn part(self, of: Layout<Ix2>) -> Layout<Ix2> {
        transposed(rows(self.1, transposed(rows(self.0, of))))
    }
}

fn transposed(of: Layout<Ix2>) -> Layout<Ix2> {
    let ([rows, columns], [down, right]) = (of.lens, of.strides);
    Layout {
        start: of.start,
        lens: [columns, rows],
        strides: [right, down],
    }
}

fn row(of: Layout<Ix2>, i: usize) -> Layout<Ix1> {
    assert!(i < of.lens[0]);
    Layout {
        start: of.start + i * of.strides[0],
        lens: [of.lens[1]],
        strides: [of.strides[1]],
    }
}

fn rows(range: impl Span, of: Layout<Ix2>) -> Layout<Ix2> {
    let (from, len) = within(range, of.lens[0]);
    Layout {
        start: of.start + from * of.strides[0],
        lens: [len, of.lens[1]],
        ..of
    }
}

fn span(range: impl Span, of: Layout<Ix1>) -> Layout<Ix1> {
    let (from, len) = within(range, of.lens[0]);
    Layout {
        start: of.start + from * of.strides[0],
        lens: [len],
        ..of
    }
}

fn within(range: impl Span, len: usize) -> (usize, usize) {
    let (from, to) = range.bounds(len);
    assert!(from <= to && to <= len, "range {from}..{to} of {len}");
    (from, to - from)
}
