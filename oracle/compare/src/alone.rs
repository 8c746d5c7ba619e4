//! Single voxels of a shift or a zoom that was put before, each asked for alone, over the input and the work that
//! its call left; and a few that are refused.

use requests::alone::{self, Left};
use requests::outcome::Outcome;
use requests::request::{Alone, Request};
use shared::Seeded;

use crate::ours::Library;
use crate::tally::Tally;

/// How many voxels of a volume are asked for.
const OF_A_VOLUME: usize = 3;

/// Wrong places of value and code.
const MISFITS: [(usize, usize); 5] = [(0, 1), (2, 1), (1, 0), (1, 2), (0, 0)];

/// Compares some voxels; the first difference, with the voxel at which it appears. `left` is what the volume's
/// call left, and `whole` what it must leave.
pub fn compare(
    request: &Request,
    left: Outcome,
    whole: &Outcome,
    seed: u64,
    library: &mut impl Library,
    tally: &mut Tally,
) -> Result<(), String> {
    let mut seeded = Seeded::new(seed);
    let lengths = request.asked.output_dims();
    let done = whole.status == 0;
    let mut asking = Asking {
        request,
        ours: of(left),
        theirs: of(whole.clone()),
        library,
        tally,
    };
    if done {
        for _ in 0..OF_A_VOLUME {
            asking.ask(Alone::at(inside(&mut seeded, lengths)), Some(whole))?;
        }
    }
    asking.ask(Alone::at(outside(&mut seeded, lengths)), None)?;
    asking.ask(misfit(&mut seeded, lengths), None)?;
    if !done || request.asked.needed() > 0 {
        asking.draw_work(&mut seeded);
        asking.ask(Alone::at(inside(&mut seeded, lengths)), None)?;
    }
    Ok(())
}

fn of(Outcome { status, lent, .. }: Outcome) -> Left {
    Left { status, lent }
}

/// An index of the output, often at its ends; where a length is 0, index 0.
fn inside(seeded: &mut Seeded, lengths: [usize; 3]) -> [usize; 3] {
    lengths.map(|length| match seeded.below(6) {
        0 => 0,
        1 => length.saturating_sub(1),
        _ => seeded.below(length.max(1)),
    })
}

/// At or beyond the length on one axis; on the others anywhere.
fn outside(seeded: &mut Seeded, lengths: [usize; 3]) -> [usize; 3] {
    let mut at = inside(seeded, lengths);
    let axis = seeded.below(3);
    let beyond = seeded.pick(&[0, 0, 0, 1, 24, 1 << 32, usize::MAX]);
    at[axis] = lengths[axis].saturating_add(beyond);
    at
}

/// Wrong places for value and code, with an index that is inside or is not.
fn misfit(seeded: &mut Seeded, lengths: [usize; 3]) -> Alone {
    let (values, codes) = seeded.pick(&MISFITS);
    let index = seeded.pick(&[inside, outside]);
    Alone {
        at: index(seeded, lengths),
        values,
        codes,
    }
}

/// A number that no filter need have left. All are finite: over such an axis of length 1 has the bits of its one
/// weight 1, whether or not weights of 0 stand behind it.
fn coefficient(seeded: &mut Seeded) -> f64 {
    match seeded.below(8) {
        0 => seeded.pick(&[0.0, -0.0, 1e300, -1e300, 5e-324]),
        _ => seeded.between(-1024.0, 1024.0),
    }
}

/// A request, and what is lent and left for its voxels on both sides.
struct Asking<'a, L> {
    request: &'a Request,
    ours: Left,
    theirs: Left,
    library: &'a mut L,
    tally: &'a mut Tally,
}

impl<L: Library> Asking<'_, L> {
    /// Asks for one voxel. `whole` is what the volume's call must leave, while work is as that left it.
    fn ask(&mut self, alone: Alone, whole: Option<&Outcome>) -> Result<(), String> {
        let Asking {
            request,
            ours,
            theirs,
            ..
        } = self;
        ours.lent.lend_one(&alone);
        theirs.lent.lend_one(&alone);
        self.library.voxel(&request.asked, alone.at, ours)?;
        alone::expect(request, &alone, whole, theirs)?;
        if let Some(difference) = ours.difference(theirs) {
            return Err(format!("{alone:?}: {difference}"));
        }
        self.tally.add_alone(&request.asked, ours, whole.is_some());
        Ok(())
    }

    /// Puts other numbers where coefficients stand.
    fn draw_work(&mut self, seeded: &mut Seeded) {
        let needed = self.request.asked.needed();
        let places = self.ours.lent.work.lent_mut().iter_mut();
        let same = self.theirs.lent.work.lent_mut().iter_mut();
        for (ours, theirs) in places.zip(same).take(needed) {
            *ours = coefficient(seeded).to_bits();
            *theirs = *ours;
        }
    }
}
