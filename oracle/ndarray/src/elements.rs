//! Work on all elements: copying, mapping, adding up.

use std::ops::{Add, Div};

use num_traits::{FromPrimitive, Zero};

use crate::array::{Array, ArrayRef};
use crate::dimension::{Axis, Dimension, Indices, Ix1};

impl<A, D: Dimension> ArrayRef<A, D> {
    /// Takes over the elements of an array of the same lengths.
    pub fn assign(&mut self, from: &ArrayRef<A, D>)
    where
        A: Clone,
    {
        assert!(self.dim == from.dim, "ndarray: lengths differ");
        let last = D::NDIM - 1;
        for row in Indices::of_lanes(self.dim, Axis(last)) {
            let (to_first, from_first) = (self.place(&row), from.place(&row));
            for i in 0..self.dim[last] as isize {
                // SAFETY: an index inside both arrays; only `self` is written, and exclusively.
                unsafe {
                    let element = from_first.offset(i * from.strides[last]).as_ref().clone();
                    *to_first.offset(i * self.strides[last]).as_mut() = element;
                }
            }
        }
    }

    /// A new array of what `f` makes of each element.
    pub fn map<B>(&self, f: impl FnMut(&A) -> B) -> Array<B, D> {
        let elements = match self.as_slice() {
            Some(elements) => elements.iter().map(f).collect(),
            None => Indices::of(self.dim)
                // SAFETY: the place of an element, borrowed with `self`.
                .map(|index| unsafe { self.place(&index).as_ref() })
                .map(f)
                .collect(),
        };
        Array::from_shape_vec(self.dim, elements).expect("one result for each element")
    }
}

impl<A> ArrayRef<A, Ix1> {
    /// The elements added from left to right, starting from zero. ndarray does so for fewer than
    /// eight elements and in another order for more, so more are refused here.
    pub fn sum(&self) -> A
    where
        A: Clone + Add<Output = A> + Zero,
    {
        assert!(self.len() < 8, "ndarray stand-in: sum of eight or more");
        self.iter()
            .fold(A::zero(), |sum, element| sum + element.clone())
    }

    /// The sum divided by the number of elements, if there are any.
    pub fn mean(&self) -> Option<A>
    where
        A: Clone + FromPrimitive + Add<Output = A> + Div<Output = A> + Zero,
    {
        if self.is_empty() {
            return None;
        }
        A::from_usize(self.len()).map(|count| self.sum() / count)
    }
}
