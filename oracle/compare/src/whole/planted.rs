//! Faults planted in where a program says that coordinates land, each of which must be noticed.

use super::fold::Fold;
use super::library::Library;
use super::{check, Axis, Landing, Program, Witness, MODES};

/// What is wrong, in which program and mode (by its number), at which coordinate of an axis of
/// length 4, and what is put there.
type Fault = (&'static str, Program, usize, i64, Landing);

const LENGTH: i64 = 4;

#[rustfmt::skip]
const FAULTS: [Fault; 13] = [
    ("a wrong voxel", Program::Library, 1, 5, Landing::Voxel(2)),
    ("a wrong voxel of the fold", Program::Fold, 3, -6, Landing::Voxel(3)),
    ("a value between two voxels", Program::Library, 4, 2, Landing::Neither(0, 1.5)),
    ("a voxel beyond the axis", Program::Library, 2, 7, Landing::Voxel(4)),
    ("a voxel where Constant has none", Program::Library, 0, 4, Landing::Voxel(3)),
    ("a departure that is missing, with the manual's voxel", Program::Library, 3, -16, Landing::Voxel(0)),
    ("a departure that is not named", Program::Library, 3, -8, Landing::Outside),
    ("the other end at an overlap", Program::Fold, 4, -3, Landing::Voxel(0)),
    ("an edge repeated below 0", Program::Library, 2, -1, Landing::Voxel(0)),
    ("an edge not repeated below 0", Program::Library, 5, -1, Landing::Outside),
    ("an edge not repeated far below 0", Program::Library, 5, -40, Landing::Outside),
    ("the other edge repeated", Program::Library, 5, 4, Landing::Voxel(0)),
    ("a repeated edge called folded", Program::Library, 5, 5, Landing::Neither(3, 3.0)),
];

/// How many faults were planted; or the first that was not noticed.
pub fn all_noticed() -> Result<usize, String> {
    for fault in FAULTS {
        let (_, program, mode, ..) = fault;
        let axis = Axis {
            mode: MODES[mode],
            length: LENGTH,
        };
        match program {
            Program::Library => noticed(&mut Library::new(axis), fault)?,
            Program::Fold => noticed(&mut Fold(axis), fault)?,
        }
    }
    Ok(FAULTS.len())
}

fn noticed(witness: &mut impl Witness, (name, _, _, place, wrong): Fault) -> Result<(), String> {
    let stretch = -40..=40;
    let planted = |at, landing| if at == place { wrong } else { landing };
    check(witness, stretch.clone(), |_, landing| landing)?;
    match check(witness, stretch, planted) {
        Ok(_) => Err(format!("not noticed: {name}")),
        Err(_) => Ok(()),
    }
}
