//! Doors to the private functions of the kept sources, for f64: what programs may ask of the Rust
//! beside its four entries.

pub use crate::interpolation::spline_filter::probe::{
    anticausal_start, causal_start, gain, lane, mirror_cutoff, poles,
};
pub use crate::interpolation::zoom_shift::probe::{
    build_splines, coefficients, map_coordinates, zoom_length, Axes, Point,
};

/// The rounding of `zoom`'s output lengths.
pub fn round_ties_even(x: f64) -> f64 {
    crate::round_ties_even(x)
}
