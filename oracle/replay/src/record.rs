//! The file: calls, and the pool of which their inputs, values, codes and coefficients are stretches.

use std::collections::HashMap;

use requests::document::CODES;
use requests::expected;
use requests::outcome::Outcome;
use requests::plan::Plan;
use requests::request::{Asked, Request};
use shared::Words;

/// The most places of a buffer, as the file's readers have room for them.
const MOST_INPUT: usize = 1024;
const MOST_OUTPUT: usize = 4096;
const MOST_WORK: usize = 20_480;
/// The most words of the file.
const MOST_WORDS: usize = 196_608;

/// What a longer buffer is cut to. Such a request meets an earlier refusal, or the one for lengths.
const SHORT: usize = 4;

/// Whether the file has words for the request: for a NaN, for a mode that is none and for a wrong
/// buffer of counts it has not.
pub fn has_words_for(plan: &Plan) -> bool {
    let asked = &plan.asked;
    let floats = asked.factors.into_iter().chain([asked.fill]);
    asked.mode().is_some() && plan.off.counts == 0 && !floats.chain(plan.flaw).any(f64::is_nan)
}

/// The plan's request, with buffers that the file has room for.
pub fn request(plan: &Plan) -> Request {
    let mut request = plan.request();
    let lengths = &mut request.lengths;
    request.input.truncate(cut(request.input.len(), MOST_INPUT));
    lengths.output = cut(lengths.output, MOST_OUTPUT);
    lengths.coverage = cut(lengths.coverage, MOST_OUTPUT);
    lengths.work = cut(lengths.work, MOST_WORK);
    request
}

fn cut(length: usize, most: usize) -> usize {
    if length > most {
        SHORT
    } else {
        length
    }
}

/// What was asked, and how it was answered.
pub struct Answered {
    pub asked: Asked,
    pub answer: u32,
    /// Zeros for the filters, which have none.
    pub counts: [u64; CODES],
}

/// Stretches of words, equal ones kept once.
#[derive(Default)]
struct Pool {
    words: Words,
    places: HashMap<Words, usize>,
}

impl Pool {
    /// Where the block starts.
    fn place(&mut self, block: Words) -> usize {
        let end = self.words.count();
        *self.places.entry(block).or_insert_with_key(|block| {
            self.words.append(block);
            end
        })
    }
}

#[derive(Default)]
pub struct Recording {
    pool: Pool,
    calls: Vec<Words>,
}

impl Recording {
    /// Adds the call as the Rust answers it; or says how the Rust and the documents disagree.
    pub fn add(&mut self, request: &Request) -> Result<Answered, String> {
        let outcome =
            expected::outcome(request).map_err(|reason| format!("{reason}\n{request}"))?;
        let asked = request.asked;
        let mut counts = [0; CODES];
        if asked.entry.resamples() {
            counts.copy_from_slice(outcome.lent.counts.lent());
        }
        let answered = Answered {
            asked,
            answer: outcome.status,
            counts,
        };
        let call = self.call(request, &answered, &outcome);
        self.calls.push(call);
        Ok(answered)
    }

    fn call(&mut self, request: &Request, answered: &Answered, outcome: &Outcome) -> Words {
        let asked = &request.asked;
        let lengths = &request.lengths;
        let mut call = Words::new();
        call.whole(asked.entry as usize);
        call.wholes(&asked.dims);
        call.floats(&asked.factors);
        call.wholes(&[asked.order, asked.axis]);
        call.wholes(&[asked.prefilter as usize, asked.mode as usize]);
        call.float(asked.fill);
        call.whole(self.pool.place(floats(outcome.lent.input.lent())));
        call.whole(request.input.len());
        call.wholes(&[lengths.output, lengths.coverage, lengths.work]);
        call.whole(answered.answer as usize);
        call.wholes(&answered.counts.map(|count| count as usize));
        call.wholes(&match answered.answer {
            0 => self.stretches(asked, outcome),
            _ => [0; 4],
        });
        call
    }

    /// Where values, codes and coefficients start, and how many coefficients there are.
    fn stretches(&mut self, asked: &Asked, outcome: &Outcome) -> [usize; 4] {
        let lent = &outcome.lent;
        let needed = asked.needed();
        let codes = if asked.entry.resamples() {
            codes(lent.coverage.lent())
        } else {
            Words::new()
        };
        [
            self.pool.place(floats(lent.output.lent())),
            self.pool.place(codes),
            self.pool.place(floats(&lent.work.lent()[..needed])),
            needed,
        ]
    }

    /// The pool, then the calls; or how many words too many.
    pub fn file(&self) -> Result<Words, String> {
        let mut file = Words::new();
        file.whole(self.pool.words.count());
        file.append(&self.pool.words);
        file.section(&self.calls);
        match file.count() {
            0..=MOST_WORDS => Ok(file),
            words => Err(format!("{words} words, and the most is {MOST_WORDS}")),
        }
    }
}

fn floats(bits: &[u64]) -> Words {
    let mut words = Words::new();
    for float in bits {
        words.float(f64::from_bits(*float));
    }
    words
}

fn codes(codes: &[u8]) -> Words {
    let mut words = Words::new();
    for code in codes {
        words.whole((*code).into());
    }
    words
}
