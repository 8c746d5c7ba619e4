//! Every whole coordinate that a request can reach, through the library and through the Rust's own
//! fold, held to the SciPy manual's rule and to the departures that the theorem `Lands`
//! (crates/border/specs/Landing.antt) and document 01 name.

mod fold;
mod judge;
mod library;
mod manual;
mod named;
pub mod planted;

use std::ops::RangeInclusive;
use std::sync::atomic::{AtomicUsize, Ordering};
use std::thread;

use requests::document::FARTHEST;
use requests::request::Mode;

use fold::Fold;
use judge::{Judge, Tally, COLUMNS};
use library::Library;

/// Where a program says that a coordinate lands.
#[derive(Clone, Copy, Debug, PartialEq)]
enum Landing {
    Voxel(i64),
    Outside,
    /// A code and a value that say neither.
    Neither(u8, f64),
}

impl Landing {
    /// The voxel whose index the value is.
    fn voxel(value: f64) -> Landing {
        let index = value as i64;
        if index as f64 == value {
            Landing::Voxel(index)
        } else {
            Landing::Neither(0, value)
        }
    }
}

#[derive(Clone, Copy, Debug, PartialEq)]
enum Program {
    Library,
    Fold,
}

/// In the order of a mode's tallies.
const PROGRAMS: [Program; 2] = [Program::Library, Program::Fold];

/// One mode on an axis of one length.
#[derive(Clone, Copy, Debug)]
struct Axis {
    mode: Mode,
    length: i64,
}

type Stretch = RangeInclusive<i64>;

/// A program, asked about one axis.
trait Witness {
    const PROGRAM: Program;
    /// The longest axis that it can be asked about.
    const LONGEST: i64;
    /// How far beyond the coordinates of voxels it is asked.
    const BEYOND: i64;

    /// Whether it can be asked about the axis.
    fn knows(axis: Axis) -> bool {
        axis.length <= Self::LONGEST
    }

    fn axis(&self) -> Axis;

    /// Hands over each coordinate of the stretch, in order, with where it lands.
    fn walk(
        &mut self,
        stretch: Stretch,
        each: impl FnMut(i64, Landing) -> Result<(), String>,
    ) -> Result<(), String>;
}

const FILL: f64 = -1.0;

/// In the order of their numbers in the door for C.
const MODES: [Mode; 6] = [
    Mode::Constant(FILL),
    Mode::Mirror,
    Mode::Nearest,
    Mode::Reflect,
    Mode::Wrap,
    Mode::Replicate,
];

/// The axes that any program is asked about.
const LONGEST: usize = Fold::LONGEST as usize;

/// Coordinates as near to 0 as this are always asked for, and farther ones of a long axis.
const NEAR: i64 = 1 << 10;

/// Up to which length each program is asked for every coordinate. At longer ones it is asked for
/// those near the axis and for both ends.
#[derive(Clone, Copy)]
pub struct Reach {
    pub library: usize,
    pub fold: usize,
}

type Tallies = [[Tally; PROGRAMS.len()]; MODES.len()];

/// What was seen, by mode and program; or the first coordinate at which a program goes its own way.
pub fn sweep(reach: Reach) -> Result<String, String> {
    let next = AtomicUsize::new(2);
    let cores = thread::available_parallelism().map_or(1, usize::from);
    let mut tallies = Tallies::default();
    thread::scope(|scope| {
        let workers: Vec<_> = (0..cores)
            .map(|_| scope.spawn(|| work(reach, &next)))
            .collect();
        for worker in workers {
            let done = worker.join().expect("no panic in the sweep")?;
            add(&mut tallies, &done);
        }
        Ok::<(), String>(())
    })?;
    Ok(table(&tallies))
}

fn table(tallies: &Tallies) -> String {
    let mut table = format!("{:24}{COLUMNS}", "");
    for (mode, tallies) in MODES.iter().zip(tallies) {
        let asked = PROGRAMS.iter().zip(tallies);
        for (program, tally) in asked.filter(|(_, tally)| !tally.is_empty()) {
            let (mode, program) = (format!("{mode:?}"), format!("{program:?}"));
            table += &format!("\n{mode:16}{program:8}{tally}");
        }
    }
    table
}

/// Takes the next length until there is none. A failure leaves none to the others.
fn work(reach: Reach, next: &AtomicUsize) -> Result<Tallies, String> {
    let mut tallies = Tallies::default();
    loop {
        let length = next.fetch_add(1, Ordering::Relaxed);
        if length > LONGEST {
            return Ok(tallies);
        }
        let done = at_length(reach, length);
        let done = done.inspect_err(|_| next.store(LONGEST + 1, Ordering::Relaxed))?;
        add(&mut tallies, &done);
    }
}

fn add(tallies: &mut Tallies, done: &Tallies) {
    for (tally, done) in tallies.iter_mut().flatten().zip(done.iter().flatten()) {
        tally.add(done);
    }
}

fn at_length(reach: Reach, length: usize) -> Result<Tallies, String> {
    let mut tallies = Tallies::default();
    for (mode, tallies) in MODES.into_iter().zip(&mut tallies) {
        let axis = Axis {
            mode,
            length: length as i64,
        };
        *tallies = [
            seen_by(Library::new, axis, length <= reach.library)?,
            seen_by(Fold, axis, length <= reach.fold)?,
        ];
    }
    Ok(tallies)
}

fn seen_by<W: Witness>(of: fn(Axis) -> W, axis: Axis, all: bool) -> Result<Tally, String> {
    let mut tally = Tally::default();
    if W::knows(axis) {
        let mut witness = of(axis);
        for stretch in stretches(axis.length, W::BEYOND, all) {
            tally.add(&check(&mut witness, stretch, |_, landing| landing)?);
        }
    }
    Ok(tally)
}

/// The coordinates that a whole shift of the axis reaches; or those near, and both ends.
fn stretches(length: i64, beyond: i64, all: bool) -> Vec<Stretch> {
    let farthest = FARTHEST as i64 - 1 + beyond;
    let (low, high) = (-farthest, farthest + length - 1);
    if all {
        return vec![low..=high];
    }
    let near = -NEAR.max(4 * length)..=NEAR.max(2 * length) - 1;
    vec![low..=low + length - 1, near, high - length + 1..=high]
}

/// Holds what a program gives on the stretch to the manual and to the named departures. `altered` may
/// plant a fault in it.
fn check<W: Witness>(
    witness: &mut W,
    stretch: Stretch,
    altered: impl Fn(i64, Landing) -> Landing,
) -> Result<Tally, String> {
    let mut judge = Judge::new(W::PROGRAM, witness.axis(), stretch.clone());
    witness.walk(stretch, |at, landing| judge.see(at, altered(at, landing)))?;
    judge.end()
}
