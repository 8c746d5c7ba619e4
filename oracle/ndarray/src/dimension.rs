//! The lengths of the axes, and how an index becomes a place in memory.

use std::ops::{Index, IndexMut};

/// The number of an axis.
#[derive(Clone, Copy, Debug, PartialEq, Eq)]
pub struct Axis(pub usize);

impl Axis {
    pub fn index(self) -> usize {
        self.0
    }
}

/// One length (or one index) for each of `N` axes.
#[derive(Clone, Copy, Debug, PartialEq, Eq)]
pub struct Dim<const N: usize>([usize; N]);

pub type Ix1 = Dim<1>;
pub type Ix2 = Dim<2>;
pub type Ix3 = Dim<3>;

impl<const N: usize> Index<usize> for Dim<N> {
    type Output = usize;

    #[inline]
    fn index(&self, axis: usize) -> &usize {
        &self.0[axis]
    }
}

impl<const N: usize> IndexMut<usize> for Dim<N> {
    #[inline]
    fn index_mut(&mut self, axis: usize) -> &mut usize {
        &mut self.0[axis]
    }
}

/// What arrays of any number of axes need to know about their axes.
pub trait Dimension: Copy + PartialEq + Index<usize, Output = usize> + IndexMut<usize> {
    const NDIM: usize;

    /// An index as a caller writes it: a number, a pair or a triple.
    type Pattern;

    /// For each axis, how far apart its neighbours lie in memory, in elements.
    type Strides: Copy + Index<usize, Output = isize> + IndexMut<usize>;

    const ORIGIN: Self;
    const NO_STRIDES: Self::Strides;

    fn lengths(&self) -> &[usize];
    fn into_pattern(self) -> Self::Pattern;

    fn size(&self) -> usize {
        self.lengths().iter().product()
    }
}

macro_rules! dimension {
    ($n:literal, $pattern:ty, $lengths:ident => $to_pattern:expr) => {
        impl Dimension for Dim<$n> {
            const NDIM: usize = $n;
            type Pattern = $pattern;
            type Strides = [isize; $n];

            const ORIGIN: Self = Dim([0; $n]);
            const NO_STRIDES: [isize; $n] = [0; $n];

            #[inline]
            fn lengths(&self) -> &[usize] {
                &self.0
            }

            #[inline]
            fn into_pattern(self) -> $pattern {
                let $lengths = self.0;
                $to_pattern
            }
        }
    };
}

dimension!(1, usize, i => i[0]);
dimension!(2, (usize, usize), i => (i[0], i[1]));
dimension!(3, (usize, usize, usize), i => (i[0], i[1], i[2]));

/// What may be given where lengths of axes are asked for.
pub trait IntoDimension {
    type Dim: Dimension;
    fn into_dimension(self) -> Self::Dim;
}

impl<D: Dimension> IntoDimension for D {
    type Dim = D;

    fn into_dimension(self) -> D {
        self
    }
}

impl<const N: usize> IntoDimension for [usize; N]
where
    Dim<N>: Dimension,
{
    type Dim = Dim<N>;

    fn into_dimension(self) -> Dim<N> {
        Dim(self)
    }
}

impl IntoDimension for usize {
    type Dim = Ix1;

    fn into_dimension(self) -> Ix1 {
        Dim([self])
    }
}

impl IntoDimension for (usize, usize) {
    type Dim = Ix2;

    fn into_dimension(self) -> Ix2 {
        Dim([self.0, self.1])
    }
}

impl IntoDimension for (usize, usize, usize) {
    type Dim = Ix3;

    fn into_dimension(self) -> Ix3 {
        Dim([self.0, self.1, self.2])
    }
}

/// What may stand between the brackets of an index.
pub trait NdIndex<D: Dimension> {
    /// The distance from the first element; `None` outside the array.
    fn offset(self, dim: &D, strides: &D::Strides) -> Option<isize>;
}

impl NdIndex<Ix1> for usize {
    #[inline]
    fn offset(self, dim: &Ix1, strides: &[isize; 1]) -> Option<isize> {
        (self < dim[0]).then(|| self as isize * strides[0])
    }
}

impl NdIndex<Ix2> for (usize, usize) {
    #[inline]
    fn offset(self, dim: &Ix2, strides: &[isize; 2]) -> Option<isize> {
        let (i, j) = self;
        (i < dim[0] && j < dim[1]).then(|| i as isize * strides[0] + j as isize * strides[1])
    }
}

impl NdIndex<Ix3> for (usize, usize, usize) {
    #[inline]
    fn offset(self, dim: &Ix3, strides: &[isize; 3]) -> Option<isize> {
        let (i, j, k) = self;
        (i < dim[0] && j < dim[1] && k < dim[2])
            .then(|| i as isize * strides[0] + j as isize * strides[1] + k as isize * strides[2])
    }
}

/// Every index of a block, the last axis running fastest.
pub(crate) struct Indices<D> {
    dim: D,
    next: Option<D>,
}

impl<D: Dimension> Indices<D> {
    pub(crate) fn of(dim: D) -> Indices<D> {
        let next = (dim.size() > 0).then_some(D::ORIGIN);
        Indices { dim, next }
    }

    /// Where the lanes along one axis begin.
    pub(crate) fn of_lanes(mut dim: D, axis: Axis) -> Indices<D> {
        dim[axis.index()] = 1;
        Indices::of(dim)
    }

    fn following(&self, mut index: D) -> Option<D> {
        for axis in (0..D::NDIM).rev() {
            index[axis] += 1;
            if index[axis] < self.dim[axis] {
                return Some(index);
            }
            index[axis] = 0;
        }
        None
    }
}

impl<D: Dimension> Iterator for Indices<D> {
    type Item = D;

    fn next(&mut self) -> Option<D> {
        let current = self.next?;
        self.next = self.following(current);
        Some(current)
    }
}
