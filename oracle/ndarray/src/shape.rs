//! Shapes: lengths together with the order in which elements lie in memory.

use crate::dimension::{Dimension, IntoDimension};

/// Lengths, and whether the first index runs fastest in memory.
#[derive(Clone, Copy)]
pub struct Shape<D> {
    dim: D,
    first_index_fastest: bool,
}

impl<D: Dimension> Shape<D> {
    pub(crate) fn dim(&self) -> D {
        self.dim
    }

    pub(crate) fn strides(&self) -> D::Strides {
        if self.first_index_fastest {
            packed_strides(&self.dim, 0..D::NDIM)
        } else {
            packed_strides(&self.dim, (0..D::NDIM).rev())
        }
    }
}

/// The strides of elements without gaps, the axes given from the fastest to the slowest. An empty
/// array keeps strides of 0, so that no place outside its memory is ever formed.
pub(crate) fn packed_strides<D: Dimension>(
    dim: &D,
    axes: impl Iterator<Item = usize>,
) -> D::Strides {
    let mut strides = D::NO_STRIDES;
    if dim.size() > 0 {
        let mut step = 1;
        for axis in axes {
            strides[axis] = step;
            step *= dim[axis] as isize;
        }
    }
    strides
}

/// What may be given where a shape is asked for.
pub trait ShapeBuilder: Sized {
    type Dim: Dimension;

    fn into_shape(self) -> Shape<Self::Dim>;

    /// The same lengths with the first index fastest (Fortran order).
    fn f(self) -> Shape<Self::Dim> {
        Shape {
            first_index_fastest: true,
            ..self.into_shape()
        }
    }
}

impl<T: IntoDimension> ShapeBuilder for T {
    type Dim = T::Dim;

    fn into_shape(self) -> Shape<T::Dim> {
        Shape {
            dim: self.into_dimension(),
            first_index_fastest: false,
        }
    }
}

impl<D: Dimension> ShapeBuilder for Shape<D> {
    type Dim = D;

    fn into_shape(self) -> Shape<D> {
        self
    }
}
