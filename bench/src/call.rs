//! What is asked of both sides.

use ndarray_ndimage::BorderMode;
use shared::Seeded;

#[derive(Clone, Copy, Debug)]
pub enum Entry {
    Shift,
    Zoom,
}

/// A call on a cube.
#[derive(Clone, Copy)]
pub struct Call {
    pub entry: Entry,
    pub side: usize,
    pub order: usize,
    pub mode: BorderMode<f64>,
    pub prefilter: bool,
}

impl Call {
    /// Shifts that fall between voxels, none of which order 0 rounds to an index outside; or factors
    /// that lengthen two axes and shorten one.
    pub fn factors(&self) -> [f64; 3] {
        match self.entry {
            Entry::Shift => [0.3, -0.4, 1.4],
            Entry::Zoom => [1.1, 0.9, 1.05],
        }
    }

    /// Voxels of sizes up to 1,024, the same in every run.
    pub(crate) fn voxels(&self) -> Vec<f64> {
        let mut seeded = Seeded::new(0);
        let voxel = |_| seeded.between(-1024.0, 1024.0);
        (0..self.side.pow(3)).map(voxel).collect()
    }
}
