//! The kept sources of ndarray-ndimage (zoom_shift.rs, spline_filter.rs, pad.rs) with the few
//! pieces of its other files that they lean on.

use ndarray::{Array, ArrayRef, Dimension, ShapeBuilder};

mod interpolation;
#[allow(clippy::all)]
#[rustfmt::skip]
mod pad;
pub mod probe;

pub use interpolation::{shift, spline_filter, spline_filter1d, zoom};
pub use pad::{pad, pad_to, PadMode};

// The three pieces below are carried over from src/filters/mod.rs and src/lib.rs of
// ndarray-ndimage under its licence (LICENSE-MIT or LICENSE-APACHE, beside this crate's sources).

// TODO We might want to offer all NumPy mode (use PadMode instead)
/// Method that will be used to determines how the input array is extended beyond its boundaries.
#[derive(Copy, Clone, Debug, PartialEq)]
pub enum BorderMode<T> {
    /// The input is extended by filling all values beyond the edge with the same constant value,
    ///
    /// `[1, 2, 3] -> [T, T, 1, 2, 3, T, T]`
    Constant(T),

    /// The input is extended by reflecting about the center of the last pixel.
    ///
    /// `[1, 2, 3] -> [3, 2, 1, 2, 3, 2, 1]`
    Mirror,

    /// The input is extended by replicating the last pixel.
    ///
    /// `[1, 2, 3] -> [1, 1, 1, 2, 3, 3, 3]`
    Nearest,

    /// The input is extended by reflecting about the edge of the last pixel.
    ///
    /// `[1, 2, 3] -> [2, 1, 1, 2, 3, 3, 2]`
    Reflect,

    /// The input is extended by wrapping around to the opposite edge.
    ///
    /// `[1, 2, 3] -> [2, 3, 1, 2, 3, 1, 2]`
    Wrap,
}

/// Utility function that returns a new *n*-dimensional array of dimension `shape` with the same
/// datatype and memory order as the input `arr`.
pub fn array_like<A, D, Sh>(arr: &ArrayRef<A, D>, shape: Sh, elem: A) -> Array<A, D>
where
    A: Clone,
    D: Dimension,
    Sh: ShapeBuilder<Dim = D>,
{
    // TODO `is_standard_layout` only works on owned arrays. Change it if using `ArrayBase`.
    if arr.is_standard_layout() {
        Array::from_elem(shape, elem)
    } else {
        Array::from_elem(shape.f(), elem)
    }
}

// TODO Use x.round_ties_even() when available on stable
// https://github.com/rust-lang/rust/issues/96710
fn round_ties_even(x: f64) -> f64 {
    let i = x as i32;
    let f = (x - i as f64).abs();
    if f == 0.5 {
        if i & 1 == 1 {
            // -1.5, 1.5, 3.5, ...
            (x.abs() + 0.5).copysign(x)
        } else {
            (x.abs() - 0.5).copysign(x)
        }
    } else {
        x.round()
    }
}
