//! Requests that are carried out, but for some of order 0: every entry, mode, order and flag, lengths
//! about the prefilter's cut-offs, volumes in which some voxels bear 0 and others 3, and axes of length 1.

use requests::document::{count, LARGEST};
use requests::plan::{Off, Plan, Voxels, VOXELS};
use requests::request::{Asked, Entry, ENTRIES, MIRROR, MODES, REFLECT};
use requests::single::{stilled, THIN};
use requests::spoils::sound;

/// Of a volume of 2 by 3 by 4. Each mode that drops coordinates drops some in one of them and keeps
/// others, at order 0 too: Constant and Nearest in the second, Reflect (at -8, four lengths below 0)
/// in the third, Nearest with its pad in the fourth.
const SHIFTS: [[f64; 3]; 6] = [
    [0.25, -1.5, 2.0],
    [1.0, 0.0, 0.25],
    [8.0, 1.0, -0.0],
    [-0.5, 0.0, 13.0],
    [0.0, 1.0, -2.0],
    [-1_048_575.5, 20.25, -7.0],
];

const ZOOMS: [[f64; 3]; 3] = [[1.5, 1.0, 1.75], [1.0, 0.7, 0.5], [2.5, 1.0, 0.9]];

/// An order, and a length at which a start of its prefilter changes its way.
const CUT_OFFS: [(usize, usize); 6] = [(2, 19), (3, 25), (4, 33), (4, 7), (5, 40), (5, 10)];

const FILLS: [f64; 4] = [-1.0, -0.0, 1e-310, LARGEST];

pub fn plans() -> Vec<Plan> {
    let mut plans = resampled(Entry::Shift, &SHIFTS);
    plans.extend(resampled(Entry::Zoom, &ZOOMS));
    plans.extend(filtered());
    plans.extend(filtered_along_one());
    plans.extend(cut_offs());
    plans.extend(unmoved());
    plans.extend(rounded_up());
    plans.extend(thin());
    plans
}

fn resampled(entry: Entry, factors: &[[f64; 3]]) -> Vec<Plan> {
    let mut plans = Vec::new();
    for mode in MODES {
        for order in 0..=5 {
            for prefilter in [0, 1] {
                for (turn, factors) in (order + mode as usize..).zip(factors) {
                    let asked = Asked {
                        factors: *factors,
                        order,
                        prefilter,
                        mode,
                        ..sound(entry).asked
                    };
                    plans.push(by_turns(asked, turn));
                }
            }
        }
    }
    plans
}

/// Fills, kinds of voxels and work beyond what is needed go by turns. The coefficients of a padded
/// volume are many, so that all calls have the same volume there.
fn by_turns(mut asked: Asked, turn: usize) -> Plan {
    asked.fill = FILLS[turn % FILLS.len()];
    let is_padded = asked.needed() > count(asked.dims);
    Plan {
        voxels: if is_padded {
            Voxels::Ordinary
        } else {
            VOXELS[turn % VOXELS.len()]
        },
        off: Off {
            work: [0, 0, 1, 9][turn % 4],
            ..Off::default()
        },
        ..Plan::of(asked, 1)
    }
}

fn filtered() -> Vec<Plan> {
    let mut plans = Vec::new();
    for mode in MODES {
        for order in 2..=5 {
            for voxels in VOXELS {
                let asked = Asked {
                    order,
                    mode,
                    ..sound(Entry::SplineFilter).asked
                };
                plans.push(Plan {
                    voxels,
                    ..Plan::of(asked, 1)
                });
            }
        }
    }
    plans
}

fn filtered_along_one() -> Vec<Plan> {
    let mut plans = Vec::new();
    for mode in MODES {
        for order in 0..=5 {
            for axis in 0..3 {
                let asked = Asked {
                    order,
                    axis,
                    mode,
                    ..sound(Entry::SplineFilter1d).asked
                };
                for turn in [axis, axis + 3] {
                    plans.push(Plan {
                        voxels: VOXELS[turn],
                        ..Plan::of(asked, 1)
                    });
                }
            }
        }
    }
    plans
}

/// Both sides of each cut-off, in the two modes that differ in their starts.
fn cut_offs() -> Vec<Plan> {
    let mut plans = Vec::new();
    for (order, cut_off) in CUT_OFFS {
        for length in cut_off - 1..=cut_off + 1 {
            for mode in [MIRROR, REFLECT] {
                for entry in [Entry::Shift, Entry::SplineFilter, Entry::SplineFilter1d] {
                    let axis = length % 3;
                    let mut dims = [2; 3];
                    dims[axis] = length;
                    let asked = Asked {
                        dims,
                        order,
                        axis,
                        mode,
                        ..sound(entry).asked
                    };
                    plans.push(Plan::of(asked, 2));
                }
            }
        }
    }
    plans
}

/// Volumes that stay in place, just long enough that some voxels have all their neighbours inside.
fn unmoved() -> Vec<Plan> {
    let mut plans = Vec::new();
    for mode in MODES {
        for order in 2..=5 {
            for (entry, still) in [(Entry::Shift, 0.0), (Entry::Zoom, 1.0)] {
                let asked = Asked {
                    dims: [order + 1; 3],
                    factors: [still; 3],
                    order,
                    prefilter: 0,
                    mode,
                    ..sound(entry).asked
                };
                plans.push(Plan::of(asked, 3));
            }
        }
    }
    plans
}

/// At order 1 a zoom folds a neighbour only where the last coordinate is rounded above the last voxel.
fn rounded_up() -> Vec<Plan> {
    let mut plans = Vec::new();
    for mode in MODES {
        for prefilter in [0, 1] {
            let asked = Asked {
                dims: [2, 2, 8],
                factors: [1.0, 1.0, 3.25],
                order: 1,
                prefilter,
                mode,
                ..sound(Entry::Zoom).asked
            };
            plans.push(Plan::of(asked, 3));
        }
    }
    plans
}

/// Every entry, mode and order with axes of length 1, one, two or three of them, and the flags and the axes of the
/// filters by turns. At order 0 the longer axes are moved by whole voxels, so that no refusal is met.
fn thin() -> Vec<Plan> {
    let mut plans = Vec::new();
    for entry in ENTRIES {
        for mode in MODES {
            for order in 0..=5 {
                let turn = order + mode as usize;
                let mut asked = Asked {
                    dims: THIN[(turn + 3 * entry as usize) % THIN.len()],
                    order,
                    axis: turn % 3,
                    prefilter: (turn + entry as usize) as u32 % 2,
                    mode,
                    ..sound(entry).asked
                };
                if (entry, order) == (Entry::Shift, 0) {
                    asked.factors = [1.0, 1.0, 2.0];
                }
                if entry != Entry::SplineFilter || order > 1 {
                    plans.push(by_turns(stilled(&asked), turn));
                }
            }
        }
    }
    plans
}
