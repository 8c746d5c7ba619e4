//! The Rust's own sources.

use ndarray::Array3;
use ndarray_ndimage::{shift, zoom};

use crate::call::{Call, Entry};

impl Call {
    /// The volume that both sides read.
    pub fn volume(&self) -> Array3<f64> {
        let dims = (self.side, self.side, self.side);
        Array3::from_shape_vec(dims, self.voxels()).expect("as many voxels as the cube has")
    }

    /// What the Rust gives for the call.
    pub fn rust(&self, data: &Array3<f64>) -> Array3<f64> {
        let entry = match self.entry {
            Entry::Shift => shift,
            Entry::Zoom => zoom,
        };
        entry(data, self.factors(), self.order, self.mode, self.prefilter)
    }
}

/// The voxels of a volume, the last index fastest.
pub fn voxels_of(volume: &Array3<f64>) -> &[f64] {
    volume.as_slice().expect("a volume in the order of memory")
}
