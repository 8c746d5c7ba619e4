//! The inputs that docs/DIFFERENCES.md gives for document 01's departures, and for Replicate beside SciPy.
//! Each lane of the last axis is 10 20 30 …, and that axis is moved.

use requests::plan::{Plan, Voxels};
use requests::request::{Asked, Entry, CONSTANT, MIRROR, NEAREST, REFLECT, REPLICATE, WRAP};

/// Axes of 2: a mode, a shift, an order and the prefilter's flag.
const SMALLEST: [(u32, f64, usize, u32); 14] = [
    (NEAREST, 1.0, 1, 0),
    (NEAREST, 13.0, 3, 1),
    (REFLECT, 8.0, 1, 0),
    (REFLECT, f64::EPSILON / 4.0, 1, 0),
    (CONSTANT, -0.5, 1, 0),
    (WRAP, -0.25, 1, 0),
    (WRAP, 1.0, 1, 0),
    (WRAP, -2.0, 1, 0),
    (CONSTANT, -0.5, 0, 0),
    (REPLICATE, 1.0, 1, 0),
    (REPLICATE, -0.5, 0, 0),
    (REPLICATE, 1.0, 2, 0),
    (REPLICATE, 0.5, 3, 1),
    (REPLICATE, 13.0, 3, 1),
];

/// A last axis of 4, order 0: refusal 9 in every mode but Replicate.
const BESIDE: [(u32, f64); 8] = [
    (CONSTANT, -0.5),
    (MIRROR, -0.5),
    (NEAREST, -0.5),
    (REFLECT, -0.5),
    (WRAP, -0.5),
    (NEAREST, -1.0),
    (REFLECT, 0.25),
    (REPLICATE, -0.5),
];

pub fn plans() -> Vec<Plan> {
    let smallest = SMALLEST
        .iter()
        .map(|(mode, shift, order, prefilter)| Asked {
            prefilter: *prefilter,
            ..shifted(2, *mode, *shift, *order)
        });
    let beside = BESIDE
        .iter()
        .map(|(mode, shift)| shifted(4, *mode, *shift, 0));
    let asked = smallest.chain(beside).chain([
        all_dropped_beside(),
        last_zoomed(CONSTANT),
        last_zoomed(REPLICATE),
        shifted(4, REPLICATE, -3.0, 2),
    ]);
    asked.map(on_lanes).collect()
}

fn shifted(length: usize, mode: u32, shift: f64, order: usize) -> Asked {
    Asked {
        entry: Entry::Shift,
        dims: [2, 2, length],
        factors: [0.0, 0.0, shift],
        order,
        axis: 0,
        prefilter: 0,
        mode,
        fill: -1.0,
    }
}

/// Axis 0 drops every index, and still the last axis meets refusal 9.
fn all_dropped_beside() -> Asked {
    let mut asked = shifted(4, CONSTANT, -0.5, 0);
    asked.factors[0] = 5.0;
    asked
}

/// The last coordinate rounds above the last voxel.
fn last_zoomed(mode: u32) -> Asked {
    Asked {
        entry: Entry::Zoom,
        factors: [1.0, 1.0, 3.25],
        ..shifted(8, mode, 0.0, 1)
    }
}

fn on_lanes(asked: Asked) -> Plan {
    Plan {
        voxels: Voxels::Lanes,
        ..Plan::of(asked, 0)
    }
}
