//! Holds landings, coordinate by coordinate, to the manual and to the named departures, and counts.

use std::fmt;
use std::iter::Peekable;

use super::named::{named, Named};
use super::{manual, Axis, Landing, Program, Stretch};

#[derive(Clone, Copy, Default)]
pub struct Tally {
    seen: u64,
    /// On a voxel that the manual lets stand there.
    on_voxel: u64,
    /// Those of them at which the manual lets two voxels stand.
    overlaps: u64,
    /// Outside, as the manual has it.
    filled: u64,
    /// Outside, where the manual has a voxel.
    dropped: u64,
}

impl Tally {
    pub fn is_empty(&self) -> bool {
        self.seen == 0
    }

    pub fn add(&mut self, other: &Tally) {
        self.seen += other.seen;
        self.on_voxel += other.on_voxel;
        self.overlaps += other.overlaps;
        self.filled += other.filled;
        self.dropped += other.dropped;
    }
}

/// The columns of a tally, as it is displayed.
pub const COLUMNS: &str = "   coordinates    on a voxel  at an overlap        filled       dropped";

impl fmt::Display for Tally {
    fn fmt(&self, f: &mut fmt::Formatter) -> fmt::Result {
        let &Tally {
            seen,
            on_voxel,
            overlaps,
            filled,
            dropped,
        } = self;
        write!(
            f,
            "{seen:14}{on_voxel:14}{overlaps:15}{filled:14}{dropped:14}"
        )
    }
}

pub struct Judge {
    program: Program,
    axis: Axis,
    next: i64,
    last: i64,
    named: Peekable<Named>,
    tally: Tally,
}

impl Judge {
    pub fn new(program: Program, axis: Axis, stretch: Stretch) -> Judge {
        Judge {
            program,
            axis,
            next: *stretch.start(),
            last: *stretch.end(),
            named: named(program, axis, stretch).peekable(),
            tally: Tally::default(),
        }
    }

    /// Takes the coordinates of the stretch in order.
    pub fn see(&mut self, at: i64, landing: Landing) -> Result<(), String> {
        if at != self.next {
            return Err(self.error(self.next, "is passed over"));
        }
        let named = self.named.next_if(|(place, _)| *place == at);
        let found = self.departs(at, landing)?.then_some((at, landing));
        if found != named {
            let given = format!("gives {landing:?}; the departure named there is {named:?}");
            return Err(self.error(at, &given));
        }
        self.next += 1;
        self.tally.seen += 1;
        Ok(())
    }

    /// Whether the manual has it otherwise, or leaves it open; a voxel that it does not let stand
    /// there is an error.
    fn departs(&mut self, at: i64, landing: Landing) -> Result<bool, String> {
        let tally = &mut self.tally;
        match landing {
            Landing::Voxel(voxel) if manual::may_stand(self.axis, at, voxel) => {
                let is_overlap = manual::is_overlap(self.axis, at);
                tally.on_voxel += 1;
                tally.overlaps += u64::from(is_overlap);
                Ok(is_overlap)
            }
            Landing::Voxel(_) | Landing::Neither(..) => {
                let given = format!("gives {landing:?}, which the manual does not let stand there");
                Err(self.error(at, &given))
            }
            Landing::Outside if manual::has_voxel(self.axis, at) => {
                tally.dropped += 1;
                Ok(true)
            }
            Landing::Outside => {
                tally.filled += 1;
                Ok(false)
            }
        }
    }

    /// The counts, if the whole stretch was seen.
    pub fn end(self) -> Result<Tally, String> {
        if self.next > self.last {
            Ok(self.tally)
        } else {
            Err(self.error(self.next, "is passed over"))
        }
    }

    fn error(&self, at: i64, given: &str) -> String {
        let Axis { mode, length } = self.axis;
        let program = self.program;
        format!("{mode:?}, length {length}, coordinate {at}: {program:?} {given}")
    }
}
