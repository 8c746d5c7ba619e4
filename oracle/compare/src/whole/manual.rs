//! The SciPy manual's border rules, over whole numbers and without a fold: which voxel may stand at
//! which coordinate. crates/border/specs/Manual.antt states them with the manual's words.

use requests::request::Mode;

use super::Axis;

/// Whether the voxel may stand at the coordinate.
pub fn may_stand(Axis { mode, length }: Axis, at: i64, voxel: i64) -> bool {
    let is_voxel = 0 <= voxel && voxel < length;
    is_voxel
        && match mode {
            Mode::Constant(_) => at == voxel,
            Mode::Mirror => {
                let period = 2 * length - 2;
                apart(period, at, voxel) || apart(period, at, -voxel)
            }
            Mode::Nearest | Mode::Replicate => {
                at == voxel || at < 0 && voxel == 0 || at >= length && voxel == length - 1
            }
            Mode::Reflect => {
                let period = 2 * length;
                apart(period, at, voxel) || apart(period, at, -1 - voxel)
            }
            Mode::Wrap => apart(length - 1, at, voxel),
        }
}

/// Whether any voxel stands there: in Constant none does beyond the edge.
pub fn has_voxel(Axis { mode, length }: Axis, at: i64) -> bool {
    match mode {
        Mode::Constant(_) => 0 <= at && at < length,
        _ => true,
    }
}

/// Whether two voxels may stand there: in Wrap the first and the last overlap.
pub fn is_overlap(axis: Axis, at: i64) -> bool {
    axis.mode == Mode::Wrap && may_stand(axis, at, 0)
}

/// Whether the one lies a whole number of periods away from the other.
fn apart(period: i64, one: i64, other: i64) -> bool {
    (one - other) % period == 0
}
