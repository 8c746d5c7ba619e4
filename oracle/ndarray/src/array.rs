//! Arrays that own their elements, views that borrow them, and `ArrayRef`, which both lend.

use std::marker::PhantomData;
use std::ops::{Deref, DerefMut, Index, IndexMut};
use std::ptr::NonNull;
use std::slice;

use num_traits::Zero;

use crate::dimension::{Dimension, Ix1, NdIndex};
use crate::shape::{packed_strides, ShapeBuilder};

/// Elements in memory by strides. Whoever makes one vouches that `first` moved by any index inside
/// `dim` is an element that lives, and that no other part in use may write, as long as this does.
pub struct ArrayParts<A, D: Dimension, Tail: ?Sized> {
    pub(crate) first: NonNull<A>,
    pub(crate) dim: D,
    pub(crate) strides: D::Strides,
    /// Without a size in `ArrayRef`, so that two of them cannot be swapped behind their owners.
    _tail: Tail,
}

/// What arrays and views have in common; functions take it by reference.
pub type ArrayRef<A, D> = ArrayParts<A, D, [u8]>;

/// An array or a view: `S` says who holds the elements.
pub struct ArrayBase<S: Data, D: Dimension> {
    parts: ArrayParts<S::Elem, D, [u8; 0]>,
    _holder: S,
}

pub type Array<A, D> = ArrayBase<OwnedRepr<A>, D>;
pub type ArrayView<'a, A, D> = ArrayBase<ViewRepr<&'a A>, D>;
pub type ArrayViewMut<'a, A, D> = ArrayBase<ViewRepr<&'a mut A>, D>;

/// A holder of elements.
pub trait Data {
    type Elem;
}

/// A holder whose elements may be written.
pub trait DataMut: Data {}

/// Elements owned; kept for their memory, reached through the parts.
pub struct OwnedRepr<A> {
    _elements: Vec<A>,
}

/// Elements borrowed.
pub struct ViewRepr<R>(PhantomData<R>);

impl<A> Data for OwnedRepr<A> {
    type Elem = A;
}

impl<A> DataMut for OwnedRepr<A> {}

impl<A> Data for ViewRepr<&A> {
    type Elem = A;
}

impl<A> Data for ViewRepr<&mut A> {
    type Elem = A;
}

impl<A> DataMut for ViewRepr<&mut A> {}

impl<S: Data, D: Dimension> Deref for ArrayBase<S, D> {
    type Target = ArrayRef<S::Elem, D>;

    #[inline]
    fn deref(&self) -> &ArrayRef<S::Elem, D> {
        &self.parts
    }
}

impl<S: DataMut, D: Dimension> DerefMut for ArrayBase<S, D> {
    #[inline]
    fn deref_mut(&mut self) -> &mut ArrayRef<S::Elem, D> {
        &mut self.parts
    }
}

/// The number of elements is not the product of the lengths.
#[derive(Debug)]
pub struct ShapeError;

/// An array of one axis with these elements.
pub fn arr1<A: Clone>(elements: &[A]) -> Array<A, Ix1> {
    Array::owning(elements.len(), elements.to_vec())
}

impl<A, D: Dimension> Array<A, D> {
    /// An array of equal elements.
    pub fn from_elem<Sh: ShapeBuilder<Dim = D>>(shape: Sh, element: A) -> Self
    where
        A: Clone,
    {
        let shape = shape.into_shape();
        Array::owning(shape, vec![element; shape.dim().size()])
    }

    /// An array of zeros.
    pub fn zeros<Sh: ShapeBuilder<Dim = D>>(shape: Sh) -> Self
    where
        A: Clone + Zero,
    {
        Array::from_elem(shape, A::zero())
    }

    /// An array of the elements given, in the order of memory.
    pub fn from_shape_vec<Sh: ShapeBuilder<Dim = D>>(
        shape: Sh,
        elements: Vec<A>,
    ) -> Result<Self, ShapeError> {
        let shape = shape.into_shape();
        if elements.len() == shape.dim().size() {
            Ok(Array::owning(shape, elements))
        } else {
            Err(ShapeError)
        }
    }

    /// The caller has made `elements` as long as the shape is large.
    fn owning<Sh: ShapeBuilder<Dim = D>>(shape: Sh, mut elements: Vec<A>) -> Self {
        let shape = shape.into_shape();
        let parts = ArrayParts {
            first: NonNull::new(elements.as_mut_ptr()).expect("a vector's pointer is not null"),
            dim: shape.dim(),
            strides: shape.strides(),
            _tail: [],
        };
        let _holder = OwnedRepr {
            _elements: elements,
        };
        ArrayBase { parts, _holder }
    }
}

impl<R, D: Dimension> ArrayBase<ViewRepr<R>, D>
where
    ViewRepr<R>: Data,
{
    /// A view of a block in memory.
    ///
    /// # Safety
    /// Every element of the block must stay borrowed as `R` says for as long as the view lives.
    #[inline]
    pub(crate) unsafe fn of_block(block: Block<<ViewRepr<R> as Data>::Elem, D>) -> Self {
        let Block {
            first,
            dim,
            strides,
        } = block;
        let parts = ArrayParts {
            first,
            dim,
            strides,
            _tail: [],
        };
        let _holder = ViewRepr(PhantomData);
        ArrayBase { parts, _holder }
    }
}

/// Where a view is to look: parts that nobody answers for yet.
pub(crate) struct Block<A, D: Dimension> {
    pub(crate) first: NonNull<A>,
    pub(crate) dim: D,
    pub(crate) strides: D::Strides,
}

impl<A, D: Dimension> ArrayRef<A, D> {
    pub fn ndim(&self) -> usize {
        D::NDIM
    }

    pub fn raw_dim(&self) -> D {
        self.dim
    }

    pub fn dim(&self) -> D::Pattern {
        self.dim.into_pattern()
    }

    pub fn shape(&self) -> &[usize] {
        self.dim.lengths()
    }

    #[inline]
    pub fn len(&self) -> usize {
        self.dim.size()
    }

    #[inline]
    pub fn is_empty(&self) -> bool {
        self.len() == 0
    }

    /// Whether the elements lie without gaps, the last index fastest.
    pub fn is_standard_layout(&self) -> bool {
        let packed = packed_strides(&self.dim, (0..D::NDIM).rev());
        let as_packed = |axis| self.dim[axis] == 1 || self.strides[axis] == packed[axis];
        self.is_empty() || (0..D::NDIM).all(as_packed)
    }

    /// The elements as one slice, where they lie in standard layout.
    pub fn as_slice(&self) -> Option<&[A]> {
        // SAFETY: in standard layout the elements are exactly `len` places from `first` on.
        self.is_standard_layout()
            .then(|| unsafe { slice::from_raw_parts(self.first.as_ptr(), self.len()) })
    }

    /// The elements as one slice to write to, where they lie in standard layout.
    pub fn as_slice_mut(&mut self) -> Option<&mut [A]> {
        // SAFETY: as in `as_slice`; the exclusive borrow of `self` is that of its elements.
        self.is_standard_layout()
            .then(|| unsafe { slice::from_raw_parts_mut(self.first.as_ptr(), self.len()) })
    }

    /// The place of the element at an index inside the array.
    #[inline]
    pub(crate) fn place(&self, index: &D) -> NonNull<A> {
        (0..D::NDIM).fold(self.first, |place, axis| {
            debug_assert!(index[axis] < self.dim[axis]);
            // SAFETY: an index inside the array stays inside its memory on the way.
            unsafe { place.offset(index[axis] as isize * self.strides[axis]) }
        })
    }
}

impl<A, D: Dimension, I: NdIndex<D>> Index<I> for ArrayRef<A, D> {
    type Output = A;

    #[inline]
    fn index(&self, index: I) -> &A {
        let Some(offset) = index.offset(&self.dim, &self.strides) else {
            out_of_bounds()
        };
        // SAFETY: the index was found inside the array.
        unsafe { self.first.offset(offset).as_ref() }
    }
}

impl<A, D: Dimension, I: NdIndex<D>> IndexMut<I> for ArrayRef<A, D> {
    #[inline]
    fn index_mut(&mut self, index: I) -> &mut A {
        let Some(offset) = index.offset(&self.dim, &self.strides) else {
            out_of_bounds()
        };
        // SAFETY: the index was found inside the array, which is borrowed exclusively.
        unsafe { self.first.offset(offset).as_mut() }
    }
}

#[cold]
#[inline(never)]
fn out_of_bounds() -> ! {
    panic!("ndarray: index out of bounds");
}
