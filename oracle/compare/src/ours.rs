//! The library through its door for C: what is asked of it, and the linked one.

use requests::alone::Left;
use requests::lent::Lent;
use requests::outcome::Outcome;
use requests::request::{Asked, Entry, Request};
use vurelika_sys::*;

/// The library, wherever its calls are made.
pub trait Library {
    fn call(&mut self, request: &Request) -> Result<Outcome, String>;

    /// One voxel of a shift or a zoom, asked for alone.
    fn voxel(&mut self, asked: &Asked, at: [usize; 3], left: &mut Left) -> Result<(), String>;
}

pub struct Linked;

impl Library for Linked {
    fn call(&mut self, request: &Request) -> Result<Outcome, String> {
        Ok(call(request))
    }

    fn voxel(&mut self, asked: &Asked, at: [usize; 3], left: &mut Left) -> Result<(), String> {
        left.status = voxel(asked, at, &mut left.lent);
        Ok(())
    }
}

pub fn call(request: &Request) -> Outcome {
    let asked = &request.asked;
    let mut lent = Lent::new(request);
    let status = match asked.entry {
        Entry::Shift | Entry::Zoom => resample(asked, &mut lent),
        Entry::SplineFilter | Entry::SplineFilter1d => filter(asked, &mut lent),
    };
    let [d0, d1, d2] = asked.dims;
    // SAFETY: these functions take numbers and nothing else.
    let (zoom_lengths, work_count) = unsafe {
        (
            [0, 1, 2].map(|axis| vurelika_zoom_length(asked.dims[axis], asked.factors[axis])),
            vurelika_work_count(d0, d1, d2, asked.order, asked.prefilter, asked.mode),
        )
    };
    Outcome {
        status,
        zoom_lengths,
        work_count,
        lent,
    }
}

#[rustfmt::skip]
pub fn resample(asked: &Asked, lent: &mut Lent) -> u32 {
    let function = if asked.entry == Entry::Shift { vurelika_shift } else { vurelika_zoom };
    let &Asked { dims: [d0, d1, d2], factors: [f0, f1, f2], order, prefilter, mode, fill, .. } = asked;
    let (input, input_len) = lent.input.parts();
    let (output, output_len) = lent.output.parts();
    let (coverage, coverage_len) = lent.coverage.parts();
    let (work, work_len) = lent.work.parts();
    let (counts, counts_len) = lent.counts.parts();
    // SAFETY: each pointer is good for the places that go with it, and nobody else holds one.
    unsafe {
        function(
            d0, d1, d2, f0, f1, f2, order, prefilter, mode, fill,
            input.cast(), input_len, output.cast(), output_len, coverage, coverage_len,
            work.cast(), work_len, counts, counts_len,
        )
    }
}

#[rustfmt::skip]
fn voxel(asked: &Asked, [x, y, z]: [usize; 3], lent: &mut Lent) -> u32 {
    let function = if asked.entry == Entry::Shift { vurelika_shift_voxel } else { vurelika_zoom_voxel };
    let &Asked { dims: [d0, d1, d2], factors: [f0, f1, f2], order, prefilter, mode, fill, .. } = asked;
    let (input, input_len) = lent.input.parts();
    let (work, work_len) = lent.work.parts();
    let (value, value_len) = lent.output.parts();
    let (code, code_len) = lent.coverage.parts();
    // SAFETY: as above.
    unsafe {
        function(
            d0, d1, d2, f0, f1, f2, order, prefilter, mode, fill,
            input.cast(), input_len, work.cast(), work_len, x, y, z, value.cast(), value_len, code, code_len,
        )
    }
}

#[rustfmt::skip]
fn filter(asked: &Asked, lent: &mut Lent) -> u32 {
    let &Asked { dims: [d0, d1, d2], order, axis, mode, fill, .. } = asked;
    let (input, input_len) = lent.input.parts();
    let (output, output_len) = lent.output.parts();
    let (input, output) = (input.cast(), output.cast());
    // SAFETY: as above.
    unsafe {
        if asked.entry == Entry::SplineFilter {
            vurelika_spline_filter(d0, d1, d2, order, mode, fill, input, input_len, output, output_len)
        } else {
            vurelika_spline_filter1d(d0, d1, d2, order, axis, mode, fill, input, input_len, output, output_len)
        }
    }
}
