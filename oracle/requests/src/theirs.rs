//! The Rust: its values, the codes off its own tables, and its coefficients.

use ndarray::{Array3, Axis};
use ndarray_ndimage::probe::{coefficients, Axes, Point};
use ndarray_ndimage::{shift, spline_filter, spline_filter1d, zoom, BorderMode};
use shared::rust;

use crate::document::place;
use crate::request::{Asked, Entry, Mode};
use crate::{replicate, single};

/// What the Rust gives. The filters have no codes; without a prefilter there are no coefficients.
pub struct Theirs {
    pub dims: [usize; 3],
    pub values: Vec<f64>,
    pub codes: Vec<u8>,
    pub coefficients: Vec<f64>,
}

impl Theirs {
    /// The value and the code of a voxel.
    pub fn voxel(&self, at: [usize; 3]) -> (f64, u8) {
        let place = place(self.dims, at);
        (self.values[place], self.codes[place])
    }
}

/// What an axis gives to one output index.
#[derive(Clone)]
pub struct Given {
    /// The indices that the sum reads, with their weights; none where the axis drops the voxel.
    pub neighbours: Vec<(usize, f64)>,
    /// The code of a voxel that the other axes leave at 0.
    pub code: u8,
}

impl Given {
    /// One voxel with the weight 1.
    pub fn one(at: usize) -> Given {
        Given {
            neighbours: vec![(at, 1.0)],
            code: 0,
        }
    }

    /// At order 0 the Rust has no weight for its one neighbour.
    fn of(point: &Point, code: u8) -> Given {
        let neighbours = match point {
            Point::Dropped => Vec::new(),
            Point::Kept {
                neighbours,
                weights,
                ..
            } => {
                let weights = weights.iter().chain(&[1.0]);
                let at = neighbours.iter().map(|neighbour| *neighbour as usize);
                at.zip(weights.copied()).collect()
            }
        };
        Given { neighbours, code }
    }
}

/// What the Rust gives for a request that passes every refusal but 9; `None` where it panics. In Replicate, and
/// where an axis has length 1, what its pieces come to.
pub fn call(asked: &Asked, input: &[f64]) -> Option<Theirs> {
    match asked.mode()? {
        _ if asked.has_single() => single::call(asked, input),
        Mode::Replicate => replicate::call(asked, input),
        mode => rust::call(|| answer(asked, input, mode.rusts())),
    }
}

/// The value and the code of one voxel, by the Rust's tables and its sum over any coefficients; `None` where it
/// panics. Without a prefilter the coefficients are the input.
pub fn voxel(asked: &Asked, source: &[f64], at: [usize; 3]) -> Option<(f64, u8)> {
    match asked.mode()? {
        _ if asked.has_single() => single::voxel(asked, source, at),
        Mode::Replicate => replicate::voxel(asked, source, at),
        mode => rust::call(|| {
            let (order, mode) = (asked.order, mode.rusts());
            axes(asked, mode).voxel(order, mode, &volume(asked.source_dims(), source), at)
        }),
    }
}

/// What each axis gives to its output indices, by the Rust's tables; `None` where it panics.
pub fn along(asked: &Asked) -> Option<[Vec<Given>; 3]> {
    match asked.mode()? {
        Mode::Replicate => replicate::along(asked),
        mode => rust::call(|| {
            let (axes, order, mode) = (axes(asked, mode.rusts()), asked.order, mode.rusts());
            let (points, codes) = (axes.points(order, mode), axes.codes_along(order, mode));
            [0, 1, 2].map(|axis| {
                let given = points[axis].iter().zip(&codes[axis]);
                given.map(|(point, code)| Given::of(point, *code)).collect()
            })
        }),
    }
}

/// What the sums of `shift` and `zoom` read.
pub fn source(asked: &Asked, input: &[f64]) -> Option<Array3<f64>> {
    let mode = asked.mode()?.rusts();
    let data = volume(asked.dims, input);
    rust::call(|| {
        if asked.has_single() {
            single::coefficients(asked, data)
        } else {
            coefficients(&data, asked.order, mode, asked.prefilter != 0)
        }
    })
}

pub fn volume(dims: [usize; 3], values: &[f64]) -> Array3<f64> {
    let volume = Array3::from_shape_vec(dims, values.to_vec());
    volume.expect("as many voxels as the dimensions say")
}

fn axes(asked: &Asked, mode: BorderMode<f64>) -> Axes {
    let of = match asked.entry {
        Entry::Zoom => Axes::of_zoom,
        _ => Axes::of_shift,
    };
    let prefilter = asked.prefilter != 0;
    of(asked.dims, asked.factors, asked.order, mode, prefilter)
}

fn answer(asked: &Asked, input: &[f64], mode: BorderMode<f64>) -> Theirs {
    let &Asked {
        entry,
        dims,
        factors,
        order,
        axis,
        ..
    } = asked;
    let prefilter = asked.prefilter != 0;
    let data = volume(dims, input);
    let resampled = |values: Array3<f64>| Theirs {
        codes: axes(asked, mode).codes(order, mode),
        coefficients: if asked.filters() {
            flat(&coefficients(&data, order, mode, prefilter))
        } else {
            Vec::new()
        },
        ..filtered(values)
    };
    match entry {
        Entry::Shift => resampled(shift(&data, factors, order, mode, prefilter)),
        Entry::Zoom => resampled(zoom(&data, factors, order, mode, prefilter)),
        Entry::SplineFilter => filtered(spline_filter(&data, order, mode)),
        Entry::SplineFilter1d => filtered(spline_filter1d(&data, order, mode, Axis(axis))),
    }
}

/// A volume without codes and coefficients.
pub fn filtered(values: Array3<f64>) -> Theirs {
    let (d0, d1, d2) = values.dim();
    Theirs {
        dims: [d0, d1, d2],
        values: flat(&values),
        codes: Vec::new(),
        coefficients: Vec::new(),
    }
}

pub fn flat(volume: &Array3<f64>) -> Vec<f64> {
    let values = volume.as_slice();
    values.expect("a volume in the order of memory").to_vec()
}
