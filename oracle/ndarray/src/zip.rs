//! `Zip`: a function called on every item, with or without the item's index.

use crate::array::Array;
use crate::dimension::{Axis, Dimension, Indices};

/// Items to be visited one after another.
pub struct Zip<P> {
    items: P,
}

impl<P: IntoIterator> Zip<P> {
    pub fn from(items: P) -> Zip<P> {
        Zip { items }
    }

    pub fn for_each(self, function: impl FnMut(P::Item)) {
        self.items.into_iter().for_each(function);
    }
}

/// The elements of an array, to be visited with their indices.
pub struct IndexedZip<'a, A, D: Dimension> {
    array: &'a mut Array<A, D>,
}

impl<'a, A, D: Dimension> Zip<&'a mut Array<A, D>> {
    pub fn indexed(array: &'a mut Array<A, D>) -> IndexedZip<'a, A, D> {
        IndexedZip { array }
    }
}

impl<'a, A, D: Dimension> IndexedZip<'a, A, D> {
    /// Row by row, the last index fastest.
    pub fn for_each(self, mut function: impl FnMut(D::Pattern, &'a mut A)) {
        let array = self.array;
        let last = D::NDIM - 1;
        for row in Indices::of_lanes(array.dim, Axis(last)) {
            let first = array.place(&row);
            let mut index = row;
            for i in 0..array.dim[last] {
                index[last] = i;
                // SAFETY: an element of the array, which is borrowed exclusively; given out once.
                let element = unsafe { first.offset(i as isize * array.strides[last]).as_mut() };
                function(index.into_pattern(), element);
            }
        }
    }
}
