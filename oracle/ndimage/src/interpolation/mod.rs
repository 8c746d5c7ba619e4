//! Where the kept files are taken in unchanged. A private function is seen by the children of its
//! module alone, so each file is included into a module that has a child, `probe`.

pub use spline_filter::{spline_filter, spline_filter1d};
pub use zoom_shift::{shift, zoom};

#[allow(clippy::all)]
pub mod spline_filter {
    include!("spline_filter.rs");

    #[warn(clippy::all)]
    pub mod probe;
}

#[allow(clippy::all)]
pub mod zoom_shift {
    include!("zoom_shift.rs");

    #[warn(clippy::all)]
    pub mod probe;
}
