//! The Rust's own fold, asked for one coordinate at a time.

use ndarray_ndimage::probe::map_coordinates;
use requests::request::Mode;

use super::{Axis, Landing, Program, Stretch, Witness};

const PAD: i64 = 12;

pub struct Fold(pub Axis);

impl Witness for Fold {
    const PROGRAM: Program = Program::Fold;
    /// An axis of 4,096 with Nearest's pad.
    const LONGEST: i64 = 4096 + 2 * PAD;
    /// The pad, and at order 5 three neighbours.
    const BEYOND: i64 = PAD + 3;

    /// The Rust's fold has no sixth mode.
    fn knows(axis: Axis) -> bool {
        axis.length <= Self::LONGEST && axis.mode != Mode::Replicate
    }

    fn axis(&self) -> Axis {
        self.0
    }

    fn walk(
        &mut self,
        stretch: Stretch,
        mut each: impl FnMut(i64, Landing) -> Result<(), String>,
    ) -> Result<(), String> {
        let Axis { mode, length } = self.0;
        for at in stretch {
            let folded = map_coordinates(at as f64, length as f64, mode.rusts());
            let landing = match folded {
                -1.0 => Landing::Outside,
                _ => Landing::voxel(folded),
            };
            each(at, landing)?;
        }
        Ok(())
    }
}
