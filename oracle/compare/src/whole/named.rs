//! Where a program is known to depart from the manual, or to choose where the manual leaves it open:
//! the cases of `Lands` (crates/border/specs/Landing.antt) and departure 1 of document 01, listed.

use requests::request::Mode;

use super::{Axis, Landing, Program, Stretch};

/// The coordinates of the stretch, in order, and where each lands.
pub type Named = Box<dyn Iterator<Item = (i64, Landing)>>;

pub fn named(program: Program, Axis { mode, length }: Axis, stretch: Stretch) -> Named {
    let outside = |at| (at, Landing::Outside);
    let (from, to) = stretch.into_inner();
    match mode {
        // -2kL for k at least 2
        Mode::Reflect => Box::new(multiples(2 * length, from..=to.min(-4 * length)).map(outside)),
        // without a pad, whatever lies below 0; the fold alone drops nothing
        Mode::Nearest if program == Program::Library => Box::new((from..=to.min(-1)).map(outside)),
        Mode::Wrap => {
            let chosen = move |at| (at, Landing::Voxel(end_at_overlap(length, at)));
            Box::new(multiples(length - 1, from..=to).map(chosen))
        }
        _ => Box::new(std::iter::empty()),
    }
}

/// The last voxel below 0, the first from L on, and within the axis the one that is there.
fn end_at_overlap(length: i64, at: i64) -> i64 {
    if at < 0 {
        length - 1
    } else if at >= length {
        0
    } else {
        at
    }
}

fn multiples(period: i64, stretch: Stretch) -> impl Iterator<Item = i64> {
    let (from, to) = stretch.into_inner();
    let first = from + (-from).rem_euclid(period);
    (first..=to).step_by(period as usize)
}
