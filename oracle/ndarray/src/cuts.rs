//! Views of parts of an array: slices along axes, rows, and the two sides of a split.

use std::ops::{Range, RangeFull, RangeTo};

use crate::array::{ArrayRef, ArrayView, ArrayViewMut, Block};
use crate::dimension::{Axis, Dimension, IntoDimension, Ix1, Ix2};

/// A range along one axis; a negative step runs it from its end to its start.
#[derive(Clone, Copy)]
pub struct Slice {
    start: usize,
    /// `None` reaches to the end of the axis.
    end: Option<usize>,
    step: isize,
}

impl Slice {
    pub fn step_by(self, step: isize) -> Slice {
        Slice {
            step: self.step * step,
            ..self
        }
    }

    /// The first index taken on an axis of this length, and how many are taken.
    fn on_axis(&self, length: usize) -> (usize, usize) {
        let end = self.end.unwrap_or(length).max(self.start);
        assert!(end <= length, "ndarray: slice past the end of the axis");
        let count = (end - self.start).div_ceil(self.step.unsigned_abs());
        let first = if self.step < 0 && count > 0 {
            end - 1
        } else {
            self.start
        };
        (first, count)
    }
}

impl From<Range<usize>> for Slice {
    fn from(range: Range<usize>) -> Slice {
        Slice {
            start: range.start,
            end: Some(range.end),
            step: 1,
        }
    }
}

impl From<RangeTo<usize>> for Slice {
    fn from(range: RangeTo<usize>) -> Slice {
        Slice::from(0..range.end)
    }
}

impl From<RangeFull> for Slice {
    fn from(_: RangeFull) -> Slice {
        Slice {
            start: 0,
            end: None,
            step: 1,
        }
    }
}

/// A slice of an array of one axis: `s![..n]`, `s![a..b]`.
#[macro_export]
macro_rules! s {
    ($range:expr) => {
        $crate::Slice::from($range)
    };
}

/// One axis of an array that is being sliced.
#[derive(Clone, Copy)]
pub struct AxisDescription {
    pub axis: Axis,
    pub len: usize,
    pub stride: isize,
}

impl<A, D: Dimension> ArrayRef<A, D> {
    pub fn len_of(&self, axis: Axis) -> usize {
        self.dim[axis.index()]
    }

    pub fn view_mut(&mut self) -> ArrayViewMut<'_, A, D> {
        // SAFETY: the whole array, borrowed exclusively.
        unsafe { ArrayViewMut::of_block(self.block()) }
    }

    /// The part that a slice of each axis leaves.
    pub fn slice_each_axis(
        &self,
        slice_of: impl FnMut(AxisDescription) -> Slice,
    ) -> ArrayView<'_, A, D> {
        // SAFETY: a part of the array, borrowed.
        unsafe { ArrayView::of_block(self.cut(slice_of)) }
    }

    /// The part that a slice of each axis leaves, to write to.
    pub fn slice_each_axis_mut(
        &mut self,
        slice_of: impl FnMut(AxisDescription) -> Slice,
    ) -> ArrayViewMut<'_, A, D> {
        // SAFETY: a part of the array, borrowed exclusively.
        unsafe { ArrayViewMut::of_block(self.cut(slice_of)) }
    }

    fn block(&self) -> Block<A, D> {
        Block {
            first: self.first,
            dim: self.dim,
            strides: self.strides,
        }
    }

    fn cut(&self, mut slice_of: impl FnMut(AxisDescription) -> Slice) -> Block<A, D> {
        let mut block = self.block();
        for axis in 0..D::NDIM {
            let (len, stride) = (self.dim[axis], self.strides[axis]);
            let description = AxisDescription {
                axis: Axis(axis),
                len,
                stride,
            };
            let slice = slice_of(description);
            let (first, count) = slice.on_axis(len);
            if count > 0 {
                // SAFETY: an index on this axis, with 0 or an index on every other.
                block.first = unsafe { block.first.offset(first as isize * stride) };
            }
            block.dim[axis] = count;
            block.strides[axis] = stride * slice.step;
        }
        block
    }
}

impl<A> ArrayRef<A, Ix1> {
    pub fn slice(&self, slice: Slice) -> ArrayView<'_, A, Ix1> {
        self.slice_each_axis(|_| slice)
    }
}

impl<A> ArrayRef<A, Ix2> {
    pub fn row_mut(&mut self, row: usize) -> ArrayViewMut<'_, A, Ix1> {
        assert!(row < self.dim[0], "ndarray: row out of bounds");
        // SAFETY: the start of a row inside the array, or of an empty row (whose stride is 0).
        let first = unsafe { self.first.offset(row as isize * self.strides[0]) };
        let block = Block {
            first,
            dim: self.dim[1].into_dimension(),
            strides: [self.strides[1]],
        };
        // SAFETY: a part of the array, borrowed exclusively.
        unsafe { ArrayViewMut::of_block(block) }
    }
}

impl<A, D: Dimension> ArrayViewMut<'_, A, D> {
    /// The parts before an index of an axis and from it on.
    pub fn split_at(self, axis: Axis, index: usize) -> (Self, Self) {
        let axis = axis.index();
        let length = self.dim[axis];
        assert!(index <= length, "ndarray: split past the end of the axis");
        let (mut before, mut after) = (self.block(), self.block());
        before.dim[axis] = index;
        after.dim[axis] = length - index;
        if index < length {
            // SAFETY: an index inside the array.
            after.first = unsafe { after.first.offset(index as isize * self.strides[axis]) };
        }
        // SAFETY: the two parts share no element and take over this view's exclusive borrow.
        unsafe { (Self::of_block(before), Self::of_block(after)) }
    }
}
