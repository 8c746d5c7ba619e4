//! Document 02's axes of length 1 (#106), on which the Rust panics or divides by zero. Such an axis is not filtered,
//! not padded and not folded, and gives its one voxel with the weight 1. All that the longer axes give is the
//! Rust's, and the sum over the three is document 01's.

use ndarray::{Array3, Axis};
use ndarray_ndimage::{pad, spline_filter1d, PadMode};
use shared::rust;

use crate::document::{indices, place};
use crate::request::{Asked, Entry};
use crate::theirs::{self, flat, Given, Theirs};

/// 2 by 3 by 4, and in its stead the length 1 on some axes, in every way.
pub const THIN: [[usize; 3]; 7] = [
    [1, 3, 4],
    [2, 1, 4],
    [2, 3, 1],
    [1, 1, 4],
    [1, 3, 1],
    [2, 1, 1],
    [1, 1, 1],
];

/// What a call must leave; `None` where the Rust panics on a longer axis.
pub fn call(asked: &Asked, input: &[f64]) -> Option<Theirs> {
    let data = theirs::volume(asked.dims, input);
    if !asked.entry.resamples() {
        return rust::call(|| theirs::filtered(filter(asked, data)));
    }
    let source = rust::call(|| coefficients(asked, data))?;
    let along = along(asked)?;
    let dims = asked.output_dims();
    let voxels = indices(dims).map(|at| summed(asked, &source, &along, at));
    let (values, codes) = voxels.unzip();
    Some(Theirs {
        dims,
        values,
        codes,
        coefficients: if asked.filters() {
            flat(&source)
        } else {
            Vec::new()
        },
    })
}

/// One voxel over any coefficients.
pub fn voxel(asked: &Asked, source: &[f64], at: [usize; 3]) -> Option<(f64, u8)> {
    let source = theirs::volume(asked.source_dims(), source);
    Some(summed(asked, &source, &along(asked)?, at))
}

/// What the sums read: longer axes have edge copies and are filtered, where the request says so.
pub fn coefficients(asked: &Asked, data: Array3<f64>) -> Array3<f64> {
    if !asked.filters() {
        return data;
    }
    let padded = asked.source_dims();
    let sides = [0, 1, 2].map(|axis| [(padded[axis] - asked.dims[axis]) / 2; 2]);
    filter(asked, pad(&data, &sides, PadMode::Edge))
}

/// Filters along the longer axes, or that one of them which is asked for.
fn filter(asked: &Asked, data: Array3<f64>) -> Array3<f64> {
    let mode = asked.mode().expect("a mode").rusts();
    let is_asked_for = |axis| asked.entry != Entry::SplineFilter1d || axis == asked.axis;
    let axes = (0..3).filter(|axis| is_asked_for(*axis) && !asked.is_single(*axis));
    axes.fold(data, |data, axis| {
        spline_filter1d(&data, asked.order, mode, Axis(axis))
    })
}

/// The request with axes of length 1 left still.
pub fn stilled(asked: &Asked) -> Asked {
    asked.still([0, 1, 2].map(|axis| asked.is_single(axis)))
}

/// That, and two voxels on each of them.
fn doubled(asked: &Asked) -> Asked {
    Asked {
        dims: asked.dims.map(|length| length.max(2)),
        ..stilled(asked)
    }
}

/// The Rust's answer for two equal voxels on each axis that has one.
fn in_two(asked: &Asked, input: &[f64]) -> Option<Theirs> {
    let doubled = doubled(asked);
    let voxel = |at: [usize; 3]| {
        let first = [0, 1, 2].map(|axis| at[axis].min(asked.dims[axis] - 1));
        input[place(asked.dims, first)]
    };
    let voxels: Vec<f64> = indices(doubled.dims).map(voxel).collect();
    theirs::call(&doubled, &voxels)
}

/// Whether `agrees` can judge the answer: nothing is filtered, and two voxels have the weights 1 and 0.
pub fn is_judged(asked: &Asked) -> bool {
    asked.has_single() && asked.entry.resamples() && asked.order < 2
}

/// Whether what is left is the first slice of what the Rust leaves for two equal ones.
pub fn agrees(asked: &Asked, input: &[f64], left: &Theirs) -> bool {
    in_two(asked, input).is_some_and(|theirs| {
        indices(left.dims).all(|at| {
            let [ours, theirs] = [left, &theirs].map(|volume| volume.voxel(at));
            (ours.0.to_bits(), ours.1) == (theirs.0.to_bits(), theirs.1)
        })
    })
}

/// What each axis gives to its output indices. Two voxels stand in for one in the Rust's tables, and what these say
/// of them is not looked at.
fn along(asked: &Asked) -> Option<[Vec<Given>; 3]> {
    let mut along = theirs::along(&doubled(asked))?;
    for axis in (0..3).filter(|axis| asked.is_single(*axis)) {
        along[axis] = vec![Given::one(0)];
    }
    Some(along)
}

/// Value and code of a voxel. It is dropped if any axis drops it; else it bears 3 if any axis folds a neighbour.
fn summed(
    asked: &Asked,
    source: &Array3<f64>,
    along: &[Vec<Given>; 3],
    at: [usize; 3],
) -> (f64, u8) {
    let [x, y, z] = [0, 1, 2].map(|axis| &along[axis][at[axis]]);
    let codes = [x.code, y.code, z.code];
    let code = [1, 2, 3].into_iter().find(|code| codes.contains(code));
    let [xs, ys, zs] = [x, y, z].map(|given| &given.neighbours);
    let value = match code {
        Some(1) => asked.fill,
        Some(2) => 0.0,
        _ if asked.order == 0 => source[(xs[0].0, ys[0].0, zs[0].0)],
        _ => {
            let mut sum = 0.0;
            for (z, of_z) in zs {
                for (y, of_y) in ys {
                    for (x, of_x) in xs {
                        sum += source[(*x, *y, *z)] * (of_x * (of_y * of_z));
                    }
                }
            }
            sum
        }
    };
    (value, code.unwrap_or(0))
}

#[cfg(test)]
pub mod tests {
    use super::*;
    use crate::document::{answer, work_count, zoom_length, MOVED_SINGLE};
    use crate::plan::{Plan, VOXELS};
    use crate::request::{CONSTANT, ENTRIES, MIRROR, MODES, NEAREST, REFLECT, REPLICATE};
    use crate::spoils::sound;
    use ndarray_ndimage::{shift, spline_filter, zoom, BorderMode};

    /// Every mode, order and flag on a volume, for these entries; axes of length 1 are left still.
    pub fn requests(entries: &[Entry], dims: [usize; 3]) -> Vec<Asked> {
        let mut requests = Vec::new();
        for entry in entries {
            for mode in MODES {
                for (order, prefilter) in (0..=5).flat_map(|order| [(order, 0), (order, 1)]) {
                    let asked = Asked {
                        dims,
                        order,
                        prefilter,
                        mode,
                        ..sound(*entry).asked
                    };
                    requests.push(stilled(&asked));
                }
            }
        }
        requests
    }

    fn bits(values: &[f64]) -> Vec<u64> {
        values.iter().map(|value| value.to_bits()).collect()
    }

    /// Where no axis has length 1 the model gives what the Rust gives.
    #[test]
    fn all_else_is_the_rusts() {
        let mut carried_out = 0;
        for asked in requests(&ENTRIES, [2, 3, 4]) {
            let request = Plan::of(asked, 1).request();
            if answer(&request) == 0 {
                let [ours, theirs] = [call, theirs::call].map(|call| call(&asked, &request.input));
                let (ours, theirs) = (ours.unwrap(), theirs.unwrap());
                assert_eq!(bits(&ours.values), bits(&theirs.values));
                assert_eq!(bits(&ours.coefficients), bits(&theirs.coefficients));
                assert_eq!((ours.dims, ours.codes), (theirs.dims, theirs.codes));
                carried_out += 1;
            }
        }
        assert!(carried_out > 250, "{carried_out}");
    }

    /// Values and codes of 1 by 1 by 4 voxels, the last axis moved.
    fn lane(mode: u32, order: usize, shift: f64) -> (Vec<f64>, Vec<u8>) {
        let asked = Asked {
            dims: [1, 1, 4],
            factors: [0.0, -0.0, shift],
            order,
            prefilter: 0,
            mode,
            ..sound(Entry::Shift).asked
        };
        let left = call(&asked, &[10.0, 20.0, 30.0, 40.0]).unwrap();
        (left.values, left.codes)
    }

    #[test]
    fn lanes_by_hand() {
        for (mode, order, shift, values, codes) in [
            (CONSTANT, 1, -0.5, [15.0, 25.0, 35.0, 35.0], [0, 0, 0, 3]),
            (CONSTANT, 1, 1.0, [-1.0, 10.0, 20.0, 30.0], [1, 0, 0, 0]),
            (CONSTANT, 0, 0.5, [-1.0, 20.0, 30.0, 40.0], [1, 0, 0, 0]),
            (NEAREST, 1, 2.0, [0.0, 0.0, 10.0, 20.0], [2, 2, 0, 0]),
            (MIRROR, 2, 0.0, [12.5, 20.0, 30.0, 37.5], [3, 0, 0, 3]),
            (REFLECT, 2, 0.0, [11.25, 20.0, 30.0, 38.75], [3, 0, 0, 3]),
            (REPLICATE, 0, -0.5, [20.0, 30.0, 40.0, 40.0], [0; 4]),
            (REPLICATE, 1, 2.0, [10.0, 10.0, 10.0, 20.0], [0; 4]),
            (REPLICATE, 2, -3.0, [38.75; 4], [3; 4]),
        ] {
            let lane = lane(mode, order, shift);
            let by_hand = (values.to_vec(), codes.to_vec());
            assert_eq!(lane, by_hand, "mode {mode}, order {order}, {shift}");
        }
    }

    /// Document 02's order: 4, 12, 5. A volume of 1 by 2 by 4.
    #[test]
    fn refusals_by_hand() {
        let answer_to = |entry, factors| {
            let dims = [1, 2, 4];
            let asked = Asked {
                dims,
                factors,
                ..sound(entry).asked
            };
            answer(&Plan::of(asked, 1).request())
        };
        let (below, above) = (1.5f64.next_down(), 0.5f64.next_up());
        for (number, factors) in [
            (MOVED_SINGLE, [0.5, 1.0, 1.0]),
            (MOVED_SINGLE, [1.5, 1.0, 1.0]),
            (MOVED_SINGLE, [5e-324, 1.0, 1.0]),
            (MOVED_SINGLE, [4096.0, 1.0, 1.0]),
            (0, [1.25, 1.0, 1.0]),
            (0, [below, 1.0, 1.0]),
            (0, [above, 1.0, 1.0]),
            (5, [1.0, 0.5, 1.0]),
            (5, [1.0, 5e-324, 1.0]),
            (MOVED_SINGLE, [0.5, 0.5, 1.0]),
            (4, [0.5, 1.0, 0.0]),
            (4, [0.0, 1.0, 1.0]),
        ] {
            assert_eq!(answer_to(Entry::Zoom, factors), number, "{factors:?}");
        }
        for (number, factors) in [
            (0, [0.0, 0.5, 0.5]),
            (0, [-0.0, 0.5, 0.5]),
            (MOVED_SINGLE, [5e-324, 0.0, 0.0]),
            (MOVED_SINGLE, [-1.0, 0.0, 0.0]),
            (4, [f64::NAN, 0.0, 0.0]),
            (4, [1.0, 0.0, f64::INFINITY]),
        ] {
            assert_eq!(answer_to(Entry::Shift, factors), number, "{factors:?}");
        }
        for entry in [Entry::SplineFilter, Entry::SplineFilter1d] {
            assert_eq!(answer_to(entry, [0.5, 0.5, f64::NAN]), 0);
        }
        assert_eq!(
            [0.5, above, below, 1.5].map(|f| zoom_length(1, f)),
            [0, 1, 1, 0]
        );
        assert_eq!([0.5, 0.75, 1.0].map(|f| zoom_length(2, f)), [0, 2, 2]);
        assert_eq!(zoom_length(0, 1.0), 0);
    }

    #[test]
    fn work_by_hand() {
        let work = |dims, order, mode| {
            work_count(&Asked {
                dims,
                order,
                mode,
                ..sound(Entry::Shift).asked
            })
        };
        for mode in [NEAREST, REPLICATE] {
            assert_eq!(work([1, 2, 4], 2, mode), 26 * 28);
            assert_eq!(work([3, 1, 1], 5, mode), 27);
            assert_eq!(work([1, 1, 1], 3, mode), 1);
            assert_eq!(work([1, 2, 4], 1, mode), 0);
            assert_eq!(work([0, 2, 4], 2, mode), 0);
        }
        assert_eq!(work([1, 2, 4], 3, MIRROR), 8);
    }

    #[test]
    fn a_lane_of_one_is_copied() {
        let voxels = [-0.0, 7.0, 5e-324, -1e30];
        for (dims, axis) in [([1, 2, 2], 0), ([2, 1, 2], 1), ([2, 2, 1], 2)] {
            for asked in requests(&ENTRIES, dims) {
                let along_it = Asked { axis, ..asked };
                if asked.entry == Entry::SplineFilter1d {
                    let left = call(&along_it, &voxels).unwrap();
                    assert_eq!(bits(&left.values), bits(&voxels));
                }
            }
        }
        for asked in requests(&ENTRIES, [1; 3]) {
            let left = call(&asked, &voxels[..1]).unwrap();
            // the sum of orders above 0 starts with 0.0
            let summed = asked.entry.resamples() && asked.order > 0;
            let value = if summed { 0.0f64 } else { -0.0 };
            assert_eq!(bits(&left.values), [value.to_bits()]);
            assert_eq!(left.codes.iter().max().unwrap_or(&0), &0);
            assert!(left.coefficients.iter().all(|c| c.is_sign_negative()));
        }
    }

    /// At orders 0 and 1, in every mode and on every kind of voxels.
    #[test]
    fn two_slices_give_the_same() {
        let mut judged = 0;
        for asked in THIN
            .into_iter()
            .flat_map(|dims| requests(&ENTRIES, dims))
            .filter(is_judged)
        {
            for voxels in VOXELS {
                let plan = Plan {
                    voxels,
                    ..Plan::of(asked, 1)
                };
                let request = plan.request();
                if answer(&request) == 0 {
                    let left = call(&asked, &request.input).unwrap();
                    assert!(agrees(&asked, &request.input, &left), "{request}");
                    judged += 1;
                }
            }
        }
        assert!(judged > 1500, "{judged}");
    }

    /// A spline through equal voxels has their height, but for rounding; and but in Reflect, where the starts of a
    /// short lane are not exact (docs/DIFFERENCES.md).
    #[test]
    fn two_slices_give_nearly_the_same_where_filtered() {
        let requests = THIN.into_iter().flat_map(|dims| requests(&ENTRIES, dims));
        let filtering = requests.filter(|asked| asked.entry.resamples() && asked.filters());
        for asked in filtering.filter(|asked| asked.mode != REFLECT) {
            let input = Plan::of(asked, 1).request().input;
            let left = call(&asked, &input).unwrap();
            let theirs = in_two(&asked, &input).unwrap();
            for at in indices(left.dims) {
                let gap = (left.voxel(at).0 - theirs.voxel(at).0).abs();
                assert!(gap < 1e-10, "{gap} at {at:?}");
            }
        }
    }

    /// The Rust itself on axes of length 1, as docs/DIFFERENCES.md has it beside SciPy.
    #[test]
    fn the_rust_itself() {
        let [one, two] = [
            theirs::volume([1; 3], &[7.0]),
            theirs::volume([1, 1, 2], &[7.0, 8.0]),
        ];
        for mode in [
            BorderMode::Constant(-1.0),
            BorderMode::Mirror,
            BorderMode::Nearest,
            BorderMode::Reflect,
            BorderMode::Wrap,
        ] {
            let still = shift(&one, [0.0; 3], 3, mode, false);
            assert_eq!(flat(&still), [6.999999999999999], "{mode:?}");
            // the coordinate is 0/0
            let dropped = match mode {
                BorderMode::Constant(fill) => fill,
                _ => 0.0,
            };
            for (order, prefilter) in (0..=5).flat_map(|order| [(order, false), (order, true)]) {
                let zoomed = zoom(&one, [1.0; 3], order, mode, prefilter);
                assert_eq!(flat(&zoomed), [dropped], "{mode:?}, order {order}");
            }
        }
        for order in 2..=5 {
            let filtered = rust::call(|| spline_filter(&two, order, BorderMode::Mirror));
            assert!(filtered.is_none(), "order {order}");
        }
        let filtered = spline_filter1d(&two, 3, BorderMode::Reflect, Axis(0));
        assert_eq!(flat(&filtered), [6.999999999999999, 7.999999999999999]);
    }
}
