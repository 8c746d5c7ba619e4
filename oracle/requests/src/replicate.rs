//! Document 02's mode Replicate (#104), which the Rust has not, put together from its Nearest. A
//! coordinate from 0 to L - 1 is asked for as it stands. One that is clamped is asked for where nothing
//! moves: on that axis with shift 0 or factor 1, at index 0 or L - 1.

use std::collections::BTreeMap;

use crate::document::{self, indices};
use crate::request::{Asked, NEAREST};
use crate::theirs::{self, Given, Theirs};

/// Where on an axis the Rust is asked for an output index.
#[derive(Clone, Copy)]
struct Place {
    /// Whether the axis is left still.
    still: bool,
    index: usize,
}

fn place(asked: &Asked, axis: usize, index: usize) -> Place {
    let (at, last) = (asked.coordinate(axis, index), asked.dims[axis] - 1);
    let still = |index| Place { still: true, index };
    if at < 0.0 {
        still(0)
    } else if at > last as f64 {
        still(last)
    } else {
        Place {
            still: false,
            index,
        }
    }
}

/// What a call must leave; `None` where the Rust panics and should not. Coefficients and the filters are
/// Nearest's.
pub fn call(asked: &Asked, input: &[f64]) -> Option<Theirs> {
    if !asked.entry.resamples() {
        return nearest(asked, [false; 3], input);
    }
    let dims = asked.output_dims();
    let places = [0, 1, 2].map(|axis| -> Vec<Place> {
        let places = (0..dims[axis]).map(|index| place(asked, axis, index));
        places.collect()
    });
    // by which axes are still; at most eight, each asked for once
    let mut answers = BTreeMap::new();
    let voxel = |at: [usize; 3]| {
        let places = [0, 1, 2].map(|axis| places[axis][at[axis]]);
        let still = places.map(|place| place.still);
        let answer = answers.entry(still);
        match answer.or_insert_with(|| nearest(asked, still, input)) {
            Some(theirs) => Some(theirs.voxel(places.map(|place| place.index))),
            None if asked.order == 0 => Some((copied(asked, input, at), 0)),
            None => None,
        }
    };
    let voxels: Option<Vec<(f64, u8)>> = indices(dims).map(voxel).collect();
    let (values, codes) = voxels?.into_iter().unzip();
    let first = answers.into_values().flatten().next();
    Some(Theirs {
        dims,
        values,
        codes,
        coefficients: first.map_or(Vec::new(), |theirs| theirs.coefficients),
    })
}

/// One voxel over any coefficients; `None` where the Rust panics and should not.
pub fn voxel(asked: &Asked, source: &[f64], at: [usize; 3]) -> Option<(f64, u8)> {
    let places = [0, 1, 2].map(|axis| place(asked, axis, at[axis]));
    let nearest = in_nearest(asked, places.map(|place| place.still));
    match theirs::voxel(&nearest, source, places.map(|place| place.index)) {
        None if asked.order == 0 => Some((copied(asked, source, at), 0)),
        voxel => voxel,
    }
}

/// What each axis gives to its output indices; `None` where the Rust panics and should not.
pub fn along(asked: &Asked) -> Option<[Vec<Given>; 3]> {
    let outputs = asked.output_dims();
    let [moved, still] = [false, true].map(|still| theirs::along(&in_nearest(asked, [still; 3])));
    let given = |axis: usize, index: usize| {
        if asked.order == 0 {
            return Some(Given::one(rounded(asked, axis, index)));
        }
        let place = place(asked, axis, index);
        let given = if place.still { &still } else { &moved };
        Some(given.as_ref()?[axis][place.index].clone())
    };
    let along = |axis| -> Option<Vec<Given>> {
        let given = (0..outputs[axis]).map(|index| given(axis, index));
        given.collect()
    };
    Some([along(0)?, along(1)?, along(2)?])
}

/// The Rust's answer in Nearest, with some axes left still.
fn nearest(asked: &Asked, still: [bool; 3], input: &[f64]) -> Option<Theirs> {
    theirs::call(&in_nearest(asked, still), input)
}

fn in_nearest(asked: &Asked, still: [bool; 3]) -> Asked {
    Asked {
        mode: NEAREST,
        ..asked.still(still)
    }
}

/// At order 0 the Rust panics wherever some coordinate of Nearest rounds outside (refusal 9), also if that
/// index is not the one that is wanted. So document 01's rule is applied by hand there: the one voxel at
/// the rounded index is copied.
fn copied(asked: &Asked, input: &[f64], at: [usize; 3]) -> f64 {
    let rounded = [0, 1, 2].map(|axis| rounded(asked, axis, at[axis]));
    input[document::place(asked.dims, rounded)]
}

fn rounded(asked: &Asked, axis: usize, index: usize) -> usize {
    (asked.settled(axis, index) + 0.5).floor() as usize
}

#[cfg(test)]
mod tests {
    use super::*;
    use crate::plan::Plan;
    use crate::request::{Entry, REPLICATE};
    use crate::spoils::sound;

    const SHIFTS: [[f64; 3]; 7] = [
        [0.0, -0.0, 0.0],
        [5e-324, -5e-324, 1.0],
        [0.25, -0.25, -1.0],
        [0.5, -0.5, 0.75],
        [-1.5, 13.0, -13.25],
        [0.5f64.next_up(), 2.0, -4.0],
        [1_048_575.5, -1_048_575.5, 0.125],
    ];
    const ZOOMS: [[f64; 3]; 3] = [[1.0, 1.0, 1.0], [1.5, 0.7, 1.75], [4.5, 1.0, 6.5]];

    fn requests() -> Vec<Asked> {
        let mut requests = Vec::new();
        for (order, prefilter) in (0..=5).flat_map(|order| [(order, 0), (order, 1)]) {
            for (entry, factors) in [(Entry::Shift, &SHIFTS[..]), (Entry::Zoom, &ZOOMS[..])] {
                requests.extend(factors.iter().map(|factors| Asked {
                    factors: *factors,
                    order,
                    prefilter,
                    mode: REPLICATE,
                    ..sound(entry).asked
                }));
            }
        }
        requests
    }

    /// The first of four lanes of 10 20 30 40, moved.
    fn lane(order: usize, prefilter: u32, shift: f64) -> (Vec<f64>, Vec<u8>) {
        let asked = Asked {
            dims: [2, 2, 4],
            factors: [0.0, 0.0, shift],
            order,
            prefilter,
            mode: REPLICATE,
            ..sound(Entry::Shift).asked
        };
        let left = call(&asked, &[10.0, 20.0, 30.0, 40.0].repeat(4)).unwrap();
        (left.values[..4].to_vec(), left.codes[..4].to_vec())
    }

    #[test]
    fn lanes_by_hand() {
        for (order, shift, values, codes) in [
            (0, 0.5, [10.0, 20.0, 30.0, 40.0], [0; 4]),
            (0, -0.5, [20.0, 30.0, 40.0, 40.0], [0; 4]),
            (0, 1_048_575.5, [10.0; 4], [0; 4]),
            (1, 2.0, [10.0, 10.0, 10.0, 20.0], [0; 4]),
            (1, -2.0, [30.0, 40.0, 40.0, 40.0], [0; 4]),
            (1, 0.5, [10.0, 15.0, 25.0, 35.0], [0; 4]),
            (1, -0.5, [15.0, 25.0, 35.0, 40.0], [0; 4]),
            (2, 1.0, [11.25, 11.25, 20.0, 30.0], [3; 4]),
            (2, -3.0, [38.75; 4], [3; 4]),
        ] {
            assert_eq!(
                lane(order, 0, shift),
                (values.to_vec(), codes.to_vec()),
                "{order}, {shift}"
            );
        }
    }

    #[test]
    fn prefiltered_edges_repeat() {
        for order in 2..=5 {
            for (shift, edge) in [(4.0, 10.0), (40.0, 10.0), (-3.5, 40.0), (-1e6, 40.0)] {
                let (values, codes) = lane(order, 1, shift);
                assert!(values.iter().all(|value| (value - edge).abs() < 1e-9));
                assert_eq!(codes, [3; 4]);
            }
        }
    }

    #[test]
    fn a_place_for_each_coordinate() {
        let of = |shift| Asked {
            dims: [4; 3],
            factors: [shift; 3],
            mode: REPLICATE,
            ..sound(Entry::Shift).asked
        };
        let place = |shift, index| {
            let Place { still, index } = place(&of(shift), 0, index);
            (still, index)
        };
        assert_eq!(place(0.0, 3), (false, 3));
        assert_eq!(place(5e-324, 0), (true, 0));
        assert_eq!(place(0.5, 1), (false, 1));
        assert_eq!(place(2.5, 2), (true, 0));
        assert_eq!(place(-3.0, 0), (false, 0));
        assert_eq!(place(-3.0, 1), (true, 3));
    }

    /// Document 02: "It never yields code 2 and never refusal 9."
    #[test]
    fn nothing_is_dropped_or_refused() {
        for asked in requests() {
            let request = Plan::of(asked, 1).request();
            assert_eq!(document::answer(&request), 0);
            let codes = call(&asked, &request.input).unwrap().codes;
            assert!(codes.iter().all(|code| [0, 3].contains(code)));
            assert!(asked.order > 1 || !codes.contains(&3));
        }
    }

    #[test]
    fn copies_by_hand_are_the_rusts() {
        let mut taken = 0;
        for asked in requests().iter().filter(|asked| asked.order == 0) {
            let input = Plan::of(*asked, 2).request().input;
            let by_hand = indices(asked.output_dims()).map(|at| copied(asked, &input, at));
            assert_eq!(
                by_hand.collect::<Vec<_>>(),
                call(asked, &input).unwrap().values
            );
            taken += usize::from(nearest(asked, [false; 3], &input).is_some());
        }
        assert!(taken > 0, "the Rust takes some of them itself");
    }
}
