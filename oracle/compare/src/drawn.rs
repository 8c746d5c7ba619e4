//! Requests from a seed. Each is made from the seed and its own number alone.

use requests::document::{FARTHEST, LARGEST};
use requests::plan::{Off, Plan, VOXELS};
use requests::request::{Asked, Entry, MODES};
use requests::spoils::SPOILS;
use shared::Seeded;

/// Lengths at which a start of the prefilter changes its way.
const CUT_OFFS: [usize; 6] = [7, 10, 19, 25, 33, 40];

pub fn plan(seed: u64, number: u64) -> Plan {
    drawn(seed, number, admitted)
}

/// With one, two or three axes of length 1.
pub fn thin(seed: u64, number: u64) -> Plan {
    drawn(seed, number, admitted_thin)
}

fn drawn(seed: u64, number: u64, admitted: fn(&mut Seeded) -> Plan) -> Plan {
    let mut seeded = Seeded::new(Seeded::new(seed).bits() ^ number);
    let mut plan = admitted(&mut seeded);
    if seeded.once_in(4) {
        for _ in 0..=seeded.below(2) {
            seeded.pick(SPOILS)(&mut plan);
        }
    }
    plan
}

/// A request that passes every refusal but, at order 0, the ninth, and sometimes the fifth.
fn admitted(seeded: &mut Seeded) -> Plan {
    let entry = seeded.pick(&[
        Entry::Shift,
        Entry::Shift,
        Entry::Shift,
        Entry::Zoom,
        Entry::Zoom,
        Entry::SplineFilter,
        Entry::SplineFilter1d,
    ]);
    let order = match entry {
        Entry::SplineFilter => 2 + seeded.below(4),
        _ => seeded.below(6),
    };
    let dims = dims(seeded);
    let asked = Asked {
        entry,
        dims,
        factors: match entry {
            Entry::Zoom => dims.map(|length| zoom(seeded, length)),
            _ => shifts(seeded, dims, order),
        },
        order,
        axis: seeded.below(3),
        prefilter: seeded.pick(&[0, 1, 1, 7]),
        mode: seeded.pick(&MODES),
        fill: seeded.pick(&[0.0, -0.0, -1.0, 7.25, 1e-310, LARGEST]),
    };
    Plan {
        asked,
        voxels: seeded.pick(&VOXELS),
        seed: seeded.bits(),
        flaw: None,
        off: Off {
            work: seeded.pick(&[0, 0, 1, 9]),
            ..Off::default()
        },
    }
}

/// The same, but that some axes have length 1; once in eight times such an axis is moved.
fn admitted_thin(seeded: &mut Seeded) -> Plan {
    let mut plan = admitted(seeded);
    let asked = &mut plan.asked;
    let which = 1 + seeded.below(7);
    for axis in (0..3).filter(|axis| which >> axis & 1 == 1) {
        asked.dims[axis] = 1;
        asked.factors[axis] = match asked.entry {
            _ if seeded.once_in(8) => seeded.pick(&MOVING),
            Entry::Zoom => still_zoom(seeded),
            _ => seeded.pick(&[0.0, -0.0]),
        };
    }
    plan
}

/// Factors that move an axis of length 1, or as zooms give it another length.
const MOVING: [f64; 8] = [5e-324, -5e-324, 0.25, 0.5, 1.5, 2.0, 1e-9, 4096.0];

/// One that leaves an axis its length 1.
fn still_zoom(seeded: &mut Seeded) -> f64 {
    match seeded.below(4) {
        0 => seeded.pick(&[0.5f64.next_up(), 1.5f64.next_down()]),
        1 => 1.0,
        _ => seeded.between(0.5f64.next_up(), 1.5f64.next_down()),
    }
}

/// Short axes; sometimes one of them is longer, often about a cut-off.
fn dims(seeded: &mut Seeded) -> [usize; 3] {
    if !seeded.once_in(5) {
        return [(); 3].map(|()| 2 + seeded.below(8));
    }
    let mut dims = [(); 3].map(|()| 2 + seeded.below(3));
    dims[seeded.below(3)] = match seeded.below(20) {
        0 => 2 + seeded.below(500),
        1..10 => 2 + seeded.below(60),
        _ => seeded.pick(&CUT_OFFS) - 1 + seeded.below(3),
    };
    dims
}

/// Order 0 refuses most shifts between voxels, so that half of its shifts are whole.
fn shifts(seeded: &mut Seeded, dims: [usize; 3], order: usize) -> [f64; 3] {
    let whole = order == 0 && seeded.once_in(2);
    // one axis goes anywhere; the others mostly stay near, or nearly all would be dropped
    let far = seeded.below(3);
    [0, 1, 2].map(|axis| {
        let shift = if axis == far || seeded.once_in(4) {
            far_shift(seeded, dims[axis] as f64)
        } else {
            seeded.pick(&[0.0, -0.0, 0.25, -0.25, 0.5, 1.0, -1.0])
        };
        if whole {
            shift.round()
        } else {
            shift
        }
    })
}

fn far_shift(seeded: &mut Seeded, length: f64) -> f64 {
    match seeded.below(9) {
        0 => seeded.between(-2.0 * length, 2.0 * length).round(),
        1 => seeded.between(-2.0 * length, 2.0 * length).round() + 0.5,
        2 => seeded.between(-2.0 * length, 2.0 * length),
        3 => seeded.between(-20.0, 20.0),
        4 => seeded.pick(&[
            5e-324,
            -5e-324,
            1e-310,
            (-54f64).exp2(),
            (-54f64).exp2().next_up(),
            -(-53f64).exp2(),
            1e-9,
        ]),
        5 => seeded.between(-FARTHEST, FARTHEST),
        6 => seeded.pick(&[1_048_575.5, -1_048_575.5]),
        _ => {
            let period = seeded.pick(&[
                length,
                length - 1.0,
                2.0 * length,
                2.0 * length - 2.0,
                length + 24.0,
                13.0,
            ]);
            let times = match seeded.below(4) {
                0 => seeded.between(0.0, FARTHEST / period - 1.0).floor(),
                few => few as f64,
            };
            let edge = seeded.pick(&[1.0, -1.0]) * (times * period + seeded.below(3) as f64);
            seeded.pick(&[edge, edge.next_up(), edge.next_down()])
        }
    }
}

/// A factor by its output length, which may lie halfway between two. From 8 voxels to 26 the last
/// coordinate is rounded above the last voxel.
fn zoom(seeded: &mut Seeded, length: usize) -> f64 {
    let outputs = match seeded.below(60) {
        0 => seeded.between(2.0, 200.0),
        1..6 if length == 8 => 26.0,
        1..30 => (2 + seeded.below(12)) as f64,
        30..45 => (1 + seeded.below(12)) as f64 + 0.5,
        _ => seeded.between(1.6, 12.0),
    };
    let factor = outputs / length as f64;
    seeded.pick(&[factor, factor, factor.next_up(), factor.next_down()])
}
