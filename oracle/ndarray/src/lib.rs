//! Stand-in for ndarray: arrays, views, lanes, slices, indexing and `Zip`, as far as the kept
//! sources use them. It holds no arithmetic of the algorithm.

mod array;
mod cuts;
mod dimension;
mod elements;
mod iterators;
mod shape;
mod zip;

pub use array::{
    arr1, Array, ArrayBase, ArrayRef, ArrayView, ArrayViewMut, Data, DataMut, ShapeError,
};
pub use cuts::{AxisDescription, Slice};
pub use dimension::{Axis, Dim, Dimension, IntoDimension, Ix1, Ix2, Ix3, NdIndex};
pub use iterators::{Iter, IterMut, LanesMut};
pub use shape::{Shape, ShapeBuilder};
pub use zip::{IndexedZip, Zip};

pub type Array1<A> = Array<A, Ix1>;
pub type Array2<A> = Array<A, Ix2>;
pub type Array3<A> = Array<A, Ix3>;
pub type ArrayRef3<A> = ArrayRef<A, Ix3>;
pub type ArrayView1<'a, A> = ArrayView<'a, A, Ix1>;
pub type ArrayViewMut1<'a, A> = ArrayViewMut<'a, A, Ix1>;
