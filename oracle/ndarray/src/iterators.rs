//! Walks over arrays: the elements along one axis, and the lanes of a block.

use std::marker::PhantomData;
use std::ops::Range;
use std::ptr::NonNull;

use crate::array::{ArrayBase, ArrayRef, ArrayView, ArrayViewMut, Block, Data};
use crate::dimension::{Axis, Dimension, Indices, IntoDimension, Ix1};

/// The places of elements that lie a fixed distance apart.
struct Places<A> {
    first: NonNull<A>,
    stride: isize,
    left: Range<usize>,
}

impl<A> Places<A> {
    fn of(lane: &ArrayRef<A, Ix1>) -> Places<A> {
        Places {
            first: lane.first,
            stride: lane.strides[0],
            left: 0..lane.len(),
        }
    }

    #[inline]
    fn next(&mut self) -> Option<NonNull<A>> {
        let index = self.left.next()?;
        // SAFETY: an index inside the lane.
        Some(unsafe { self.first.offset(index as isize * self.stride) })
    }
}

/// The elements of an array of one axis.
pub struct Iter<'a, A> {
    places: Places<A>,
    _borrow: PhantomData<&'a A>,
}

impl<'a, A> Iterator for Iter<'a, A> {
    type Item = &'a A;

    #[inline]
    fn next(&mut self) -> Option<&'a A> {
        // SAFETY: the element stays borrowed as long as the walk says.
        self.places.next().map(|place| unsafe { place.as_ref() })
    }
}

/// The elements of an array of one axis, to write to.
pub struct IterMut<'a, A> {
    places: Places<A>,
    _borrow: PhantomData<&'a mut A>,
}

impl<'a, A> Iterator for IterMut<'a, A> {
    type Item = &'a mut A;

    #[inline]
    fn next(&mut self) -> Option<&'a mut A> {
        // SAFETY: the element stays borrowed exclusively, and each is given out once.
        self.places
            .next()
            .map(|mut place| unsafe { place.as_mut() })
    }
}

impl<A> ArrayRef<A, Ix1> {
    pub fn iter(&self) -> Iter<'_, A> {
        Iter {
            places: Places::of(self),
            _borrow: PhantomData,
        }
    }

    pub fn iter_mut(&mut self) -> IterMut<'_, A> {
        IterMut {
            places: Places::of(self),
            _borrow: PhantomData,
        }
    }
}

impl<'a, S: Data> IntoIterator for &'a ArrayBase<S, Ix1> {
    type Item = &'a S::Elem;
    type IntoIter = Iter<'a, S::Elem>;

    fn into_iter(self) -> Iter<'a, S::Elem> {
        self.iter()
    }
}

impl<'a, A> IntoIterator for ArrayView<'a, A, Ix1> {
    type Item = &'a A;
    type IntoIter = Iter<'a, A>;

    fn into_iter(self) -> Iter<'a, A> {
        // The elements are borrowed for longer than the view that is given up here.
        Iter {
            places: Places::of(&self),
            _borrow: PhantomData,
        }
    }
}

/// The lanes along one axis of an array, to write to.
pub struct LanesMut<'a, A, D: Dimension> {
    block: ArrayViewMut<'a, A, D>,
    starts: Indices<D>,
    axis: usize,
}

impl<'a, A, D: Dimension> Iterator for LanesMut<'a, A, D> {
    type Item = ArrayViewMut<'a, A, Ix1>;

    fn next(&mut self) -> Option<ArrayViewMut<'a, A, Ix1>> {
        let start = self.starts.next()?;
        let lane = Block {
            first: self.block.place(&start),
            dim: self.block.dim[self.axis].into_dimension(),
            strides: [self.block.strides[self.axis]],
        };
        // SAFETY: lanes that start at different places share no element, and each is given out
        // once under the exclusive borrow of the whole.
        Some(unsafe { ArrayViewMut::of_block(lane) })
    }
}

impl<A, D: Dimension> ArrayRef<A, D> {
    pub fn lanes_mut(&mut self, axis: Axis) -> LanesMut<'_, A, D> {
        LanesMut {
            starts: Indices::of_lanes(self.dim, axis),
            axis: axis.index(),
            block: self.view_mut(),
        }
    }
}
