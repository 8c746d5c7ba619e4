//! Requests that are always put: every entry, mode and order; the prefilter's cut-offs; the edges of
//! the folds; coordinates that Replicate clamps; weights about 0; zooms that round from a tie; axes of length 1;
//! the longest axes; each limit alone and in pairs.

use requests::plan::{Plan, Voxels, VOXELS};
use requests::request::{Asked, Entry, CONSTANT, ENTRIES, MIRROR, MODES, NEAREST, REPLICATE};
use requests::single::{stilled, THIN};
use requests::spoils::{sound, SPOILS};

pub fn plans() -> Vec<Plan> {
    let mut plans = Vec::new();
    plans.extend(combinations());
    plans.extend(cut_offs());
    plans.extend(fold_edges());
    plans.extend(padded_edges());
    plans.extend(clamped());
    plans.extend(weights_about_0());
    plans.extend(ties());
    plans.extend(thin());
    plans.extend(slices());
    plans.extend(longest());
    plans.extend(limits());
    plans
}

/// Short axes, no prefilter, Constant: what the lists below change in places.
fn plain(entry: Entry, order: usize) -> Asked {
    Asked {
        entry,
        dims: [2; 3],
        factors: match entry {
            Entry::Zoom => [1.0; 3],
            _ => [0.0; 3],
        },
        order,
        axis: 0,
        prefilter: 0,
        mode: CONSTANT,
        fill: -7.25,
    }
}

fn combinations() -> Vec<Plan> {
    let mut plans = Vec::new();
    for entry in ENTRIES {
        for mode in MODES {
            for order in 0..=6 {
                for (voxels, seed) in VOXELS.into_iter().zip(0..) {
                    for prefilter in [0, 1, u32::MAX] {
                        let asked = Asked {
                            dims: [3, 4, 5],
                            factors: match entry {
                                Entry::Zoom => [1.5, 0.75, 1.75],
                                _ if order == 0 => [1.0, -2.0, 0.25],
                                _ => [0.25, -1.5, 6.0],
                            },
                            axis: seed as usize % 3,
                            prefilter,
                            mode,
                            ..plain(entry, order)
                        };
                        plans.push(Plan {
                            voxels,
                            ..Plan::of(asked, seed)
                        });
                    }
                }
            }
        }
    }
    plans
}

/// Both sides of each length at which a start of the prefilter changes its way.
fn cut_offs() -> Vec<Plan> {
    let mut plans = Vec::new();
    for cut_off in [7, 10, 19, 25, 33, 40] {
        for length in [cut_off - 1, cut_off, cut_off + 1] {
            for axis in 0..3 {
                for order in 2..=5 {
                    for mode in MODES {
                        for entry in ENTRIES {
                            let mut asked = Asked {
                                axis,
                                prefilter: 1,
                                mode,
                                ..plain(entry, order)
                            };
                            asked.dims[axis] = length;
                            asked.factors[axis] = 1.25;
                            plans.push(Plan::of(asked, length as u64));
                        }
                    }
                }
            }
        }
    }
    plans
}

/// Shifts that put some voxel on an edge of a fold, or one float beside it.
fn fold_edges() -> Vec<Plan> {
    let mut plans = Vec::new();
    for length in [2, 3, 4, 7] {
        for mode in MODES {
            for period in [length, length - 1, 2 * length, 2 * length - 2] {
                let farthest = ((1 << 20) - 1) / period;
                for times in [0, 1, 2, 3, farthest] {
                    let whole = (times * period) as f64;
                    for edge in [whole, -whole] {
                        for at in [edge.next_down(), edge, edge.next_up(), edge + 0.5] {
                            for order in [0, 1, 2] {
                                plans.push(Plan::of(
                                    Asked {
                                        dims: [2, 2, length],
                                        factors: [0.0, 0.0, at],
                                        mode,
                                        ..plain(Entry::Shift, order)
                                    },
                                    length as u64,
                                ));
                            }
                        }
                    }
                }
            }
        }
    }
    plans
}

/// The same in the two modes with a pad. Nearest drops a coordinate at or below -13, Replicate none.
fn padded_edges() -> Vec<Plan> {
    let mut plans = Vec::new();
    for mode in [NEAREST, REPLICATE] {
        for order in 2..=5 {
            for edge in [11.0, 12.0, 13.0, 14.0f64] {
                for shift in [edge.next_down(), edge, edge.next_up(), -edge] {
                    plans.push(Plan::of(
                        Asked {
                            dims: [2, 3, 2],
                            factors: [0.0, shift, 0.0],
                            prefilter: 1,
                            mode,
                            ..plain(Entry::Shift, order)
                        },
                        order as u64,
                    ));
                }
            }
        }
    }
    plans
}

/// Sizes of shifts about the coordinates that Replicate clamps.
const ABOUT_CLAMPS: [f64; 8] = [0.0, 5e-324, 1e-9, 0.5, 0.75, 1.0, 2.5, 1_048_575.5];

/// In Replicate: every axis moved, below and above in turn, so that voxels are clamped on no, one, two and
/// three axes; and zooms whose last coordinate is rounded above the last voxel, or is not.
fn clamped() -> Vec<Plan> {
    let mut plans = Vec::new();
    for (order, prefilter) in (0..=5).flat_map(|order| [(order, 0), (order, 1)]) {
        let of = |entry, dims, factors| {
            let asked = Asked {
                dims,
                factors,
                prefilter,
                mode: REPLICATE,
                ..plain(entry, order)
            };
            Plan::of(asked, order as u64)
        };
        for (turn, first) in ABOUT_CLAMPS.into_iter().enumerate() {
            for second in ABOUT_CLAMPS {
                let third = ABOUT_CLAMPS[(turn + 3) % ABOUT_CLAMPS.len()];
                for factors in [[first, -second, third], [-first, second, -third]] {
                    plans.push(of(Entry::Shift, [2, 3, 4], factors));
                }
            }
        }
        for factors in [[1.0, 3.25, 1.5], [3.25, 1.0, 1.75]] {
            plans.push(of(Entry::Zoom, [8, 8, 2], factors));
        }
    }
    plans
}

/// Axes on which some voxels have all their neighbours inside at every order: moved to where the weight
/// of an outermost neighbour is 0, or one float beside it; and zoomed so that the last coordinate is
/// rounded above the last voxel.
fn weights_about_0() -> Vec<Plan> {
    let mut plans = Vec::new();
    let modes = MODES.map(|mode| (mode, 0)).into_iter();
    for (mode, prefilter) in modes.chain([(NEAREST, 1), (REPLICATE, 1)]) {
        for order in 0..=5 {
            let of = |entry| Asked {
                dims: [6, 7, 8],
                prefilter,
                mode,
                ..plain(entry, order)
            };
            for size in [0.0, 0.25, 0.5, 1.0f64] {
                for edge in [size, -size] {
                    for shift in [edge.next_down(), edge, edge.next_up()] {
                        let mut asked = of(Entry::Shift);
                        asked.factors[order % 3] = shift;
                        plans.push(Plan::of(asked, order as u64));
                    }
                }
            }
            let mut zoomed = of(Entry::Zoom);
            zoomed.factors[2] = 3.25;
            plans.push(Plan::of(zoomed, order as u64));
        }
    }
    plans
}

/// Factors at which an output length lies halfway between two, and the floats beside them.
fn ties() -> Vec<Plan> {
    let mut plans = Vec::new();
    for length in 2..10 {
        for outputs in 1..12 {
            let tie = (f64::from(outputs) + 0.5) / length as f64;
            for factor in [tie.next_down(), tie, tie.next_up()] {
                plans.push(Plan::of(
                    Asked {
                        dims: [2, length, 2],
                        factors: [1.0, factor, 1.0],
                        mode: MIRROR,
                        ..plain(Entry::Zoom, 1)
                    },
                    length as u64,
                ));
            }
        }
    }
    plans
}

/// Axes of length 1, one, two or three of them; the others moved, and left still.
fn thin() -> Vec<Plan> {
    let mut plans = Vec::new();
    for entry in ENTRIES {
        for mode in MODES {
            for (order, prefilter) in (0..=5).flat_map(|order| [(order, 0), (order, 1)]) {
                for (dims, turn) in THIN.into_iter().zip(0..) {
                    let still = Asked {
                        dims,
                        axis: turn % 3,
                        prefilter,
                        mode,
                        ..plain(entry, order)
                    };
                    let factors = match entry {
                        Entry::Zoom => [1.5, 0.7, 1.75],
                        _ if order == 0 => [1.0, -1.0, 2.0],
                        _ => [0.25, -1.5, 13.5],
                    };
                    let moved = stilled(&Asked { factors, ..still });
                    for (asked, seed) in [(still, 1), (moved, 2)] {
                        plans.push(Plan {
                            voxels: VOXELS[(turn + order) % VOXELS.len()],
                            ..Plan::of(asked, seed)
                        });
                    }
                }
            }
        }
    }
    plans
}

/// Single slices of ten thousand voxels and more.
fn slices() -> Vec<Plan> {
    let mut plans = Vec::new();
    for mode in MODES {
        for entry in ENTRIES {
            for axis in 0..3 {
                let turn = axis + mode as usize;
                let mut asked = Asked {
                    dims: [95, 113, 131],
                    factors: match entry {
                        Entry::Zoom => [1.1, 0.9, 1.05],
                        _ => [7.25, -3.5, 40.75],
                    },
                    axis: turn % 3,
                    prefilter: 1,
                    mode,
                    ..plain(entry, 2 + turn % 4)
                };
                asked.dims[axis] = 1;
                plans.push(Plan::of(stilled(&asked), turn as u64));
            }
        }
    }
    plans
}

/// Axes of 4,096, in or out, beside axes of 2 and of 1.
fn longest() -> Vec<Plan> {
    let mut plans = Vec::new();
    for (axis, short) in (0..3).flat_map(|axis| [(axis, 2), (axis, 1)]) {
        for mode in MODES {
            for (entry, order) in [
                (Entry::Shift, 1),
                (Entry::Shift, 4),
                (Entry::Zoom, 2),
                (Entry::SplineFilter, 5),
                (Entry::SplineFilter1d, 3),
            ] {
                let mut asked = Asked {
                    dims: [short; 3],
                    axis,
                    prefilter: 1,
                    mode,
                    ..plain(entry, order)
                };
                asked.dims[axis] = 4096;
                asked.factors[axis] = match entry {
                    Entry::Zoom => 0.3,
                    _ => -2047.25,
                };
                plans.push(Plan::of(asked, axis as u64));
            }
            let mut widened = Asked {
                dims: [short; 3],
                mode,
                ..plain(Entry::Zoom, 3)
            };
            widened.dims[axis] = 2;
            widened.factors[axis] = 2048.0;
            plans.push(Plan {
                voxels: Voxels::Whole,
                ..Plan::of(widened, axis as u64)
            });
        }
    }
    plans
}

/// Each limit alone, then with every other.
fn limits() -> Vec<Plan> {
    let mut plans = Vec::new();
    for entry in ENTRIES {
        for (i, first) in SPOILS.iter().enumerate() {
            let mut alone = sound(entry);
            first(&mut alone);
            plans.push(alone);
            for second in &SPOILS[i + 1..] {
                let mut both = alone;
                second(&mut both);
                plans.push(both);
            }
        }
    }
    plans
}
