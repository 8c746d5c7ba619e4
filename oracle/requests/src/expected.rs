//! What a call must leave: documents 01 and 02 say which number, the Rust says which values.

use crate::document::{self, CODES};
use crate::lent::Lent;
use crate::outcome::Outcome;
use crate::request::Request;
use crate::single;
use crate::theirs::{self, Theirs};

/// The outcome that the request must have; or how the Rust and the documents disagree on it.
pub fn outcome(request: &Request) -> Result<Outcome, String> {
    let asked = &request.asked;
    let status = document::answer(request);
    let mut lent = Lent::new(request);
    match status {
        0 => {
            let theirs = theirs::call(asked, &request.input);
            let theirs = theirs.ok_or("no refusal applies, and the Rust panics")?;
            if single::is_judged(asked) && !single::agrees(asked, &request.input, &theirs) {
                return Err("the Rust gives another slice where there are two of it".into());
            }
            write(&mut lent, request, &theirs)?;
        }
        9 if theirs::call(asked, &request.input).is_some() => {
            return Err("refusal 9 applies, and the Rust does not panic".into());
        }
        _ => {}
    }
    if status != 0 && asked.entry.resamples() && request.lengths.counts == CODES {
        lent.counts.lent_mut().fill(0);
    }
    Ok(Outcome {
        status,
        zoom_lengths: [0, 1, 2]
            .map(|axis| document::zoom_length(asked.dims[axis], asked.factors[axis])),
        work_count: document::work_count(asked),
        lent,
    })
}

/// Writes what the Rust gives where the library must write it, and nothing else.
fn write(lent: &mut Lent, request: &Request, theirs: &Theirs) -> Result<(), String> {
    let needed = request.asked.needed();
    if theirs.dims != request.asked.output_dims() || theirs.coefficients.len() != needed {
        return Err("the Rust's volumes have other lengths than the documents say".into());
    }
    put(lent.output.lent_mut(), &theirs.values);
    put(&mut lent.work.lent_mut()[..needed], &theirs.coefficients);
    if request.asked.entry.resamples() {
        lent.coverage.lent_mut().copy_from_slice(&theirs.codes);
        for (code, count) in (0..).zip(lent.counts.lent_mut()) {
            *count = theirs.codes.iter().filter(|c| **c == code).count() as u64;
        }
    }
    Ok(())
}

fn put(places: &mut [u64], values: &[f64]) {
    for (place, value) in places.iter_mut().zip(values) {
        *place = value.to_bits();
    }
}
