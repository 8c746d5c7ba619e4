//! The library, through its Rust crate.

use ndarray_ndimage::BorderMode;
use vurelika::{shift_into, zoom_into, Request};

use crate::call::{Call, Entry};

/// A call, and what it is lent to write, every page of it touched before.
pub struct Lent {
    entry: Entry,
    request: Request,
    pub output: Vec<f64>,
    coverage: Vec<u8>,
    work: Vec<f64>,
}

impl Lent {
    pub fn new(call: &Call) -> Lent {
        let request = request(call);
        let sizes = match call.entry {
            Entry::Shift => request.shift_sizes(),
            Entry::Zoom => request.zoom_sizes(),
        };
        let sizes = sizes.expect("the library has sizes for the call");
        Lent {
            entry: call.entry,
            request,
            output: vec![f64::NAN; sizes.output],
            coverage: vec![9; sizes.output],
            work: vec![f64::NAN; sizes.work],
        }
    }

    pub fn bytes(&self) -> usize {
        8 * self.output.len() + self.coverage.len() + 8 * self.work.len()
    }

    /// Makes the call, which must succeed.
    pub fn call(&mut self, input: &[f64]) {
        let function = match self.entry {
            Entry::Shift => shift_into,
            Entry::Zoom => zoom_into,
        };
        let (output, coverage) = (&mut self.output, &mut self.coverage);
        let counts = function(&self.request, input, output, coverage, &mut self.work);
        counts.expect("the library carries out the call");
    }
}

fn request(call: &Call) -> Request {
    Request {
        dims: [call.side; 3],
        factors: call.factors(),
        order: call.order,
        prefilter: call.prefilter,
        mode: match call.mode {
            BorderMode::Constant(fill) => vurelika::BorderMode::Constant(fill),
            BorderMode::Mirror => vurelika::BorderMode::Mirror,
            BorderMode::Nearest => vurelika::BorderMode::Nearest,
            BorderMode::Reflect => vurelika::BorderMode::Reflect,
            BorderMode::Wrap => vurelika::BorderMode::Wrap,
        },
    }
}
