//! The buffers that the library is lent, each from the middle of a larger one: what stands around
//! it is watched. Floats are kept as their bits.

use std::fmt::LowerHex;
use std::ptr::null_mut;

use crate::request::{Alone, Request};

/// Places before and after what is lent.
pub const GUARD: usize = 8;

#[derive(Clone)]
pub struct Buffer<T>(Vec<T>);

impl<T: Copy> Buffer<T> {
    /// Every place, guards too, holds what `marks` gives for it.
    fn marked(length: usize, marks: impl Fn(usize) -> T) -> Buffer<T> {
        Buffer((0..length + 2 * GUARD).map(marks).collect())
    }

    pub fn length(&self) -> usize {
        self.0.len() - 2 * GUARD
    }

    pub fn lent(&self) -> &[T] {
        &self.0[GUARD..][..self.length()]
    }

    pub fn lent_mut(&mut self) -> &mut [T] {
        let length = self.length();
        &mut self.0[GUARD..][..length]
    }

    /// As a caller in C gives it: an empty buffer is a null pointer. The pointer is one into the
    /// whole, so that a write beside what is lent would show.
    pub fn parts(&mut self) -> (*mut T, usize) {
        match self.length() {
            0 => (null_mut(), 0),
            // SAFETY: there are more places than GUARD.
            length => (unsafe { self.0.as_mut_ptr().add(GUARD) }, length),
        }
    }

    /// The lent places and their guards.
    pub fn whole(&self) -> &[T] {
        &self.0
    }

    pub fn whole_mut(&mut self) -> &mut [T] {
        &mut self.0
    }
}

#[derive(Clone)]
pub struct Lent {
    pub input: Buffer<u64>,
    pub output: Buffer<u64>,
    pub coverage: Buffer<u8>,
    pub work: Buffer<u64>,
    pub counts: Buffer<u64>,
}

impl Lent {
    /// The request's buffers before a call. No call writes the marks: these floats are no numbers,
    /// no count is so large, and no code is above 3. They differ from buffer to buffer, so that a
    /// guard copied to a guard would show.
    pub fn new(request: &Request) -> Lent {
        let mut input = Buffer::marked(request.input.len(), floats(1));
        for (place, voxel) in input.lent_mut().iter_mut().zip(&request.input) {
            *place = voxel.to_bits();
        }
        let lengths = &request.lengths;
        Lent {
            input,
            output: Buffer::marked(lengths.output, floats(2)),
            coverage: Buffer::marked(lengths.coverage, code),
            work: Buffer::marked(lengths.work, floats(3)),
            counts: Buffer::marked(lengths.counts, |place| u64::MAX - place as u64),
        }
    }

    /// For one voxel asked for alone: input and work stay as they are, output is to take its value and
    /// coverage its code. No counts are lent.
    pub fn lend_one(&mut self, alone: &Alone) {
        self.output = Buffer::marked(alone.values, floats(2));
        self.coverage = Buffer::marked(alone.codes, code);
    }

    /// The first place that differs from what is expected, in words.
    pub fn difference(&self, expected: &Lent) -> Option<String> {
        place("input", self.input.whole(), expected.input.whole())
            .or_else(|| place("output", self.output.whole(), expected.output.whole()))
            .or_else(|| place("coverage", self.coverage.whole(), expected.coverage.whole()))
            .or_else(|| place("work", self.work.whole(), expected.work.whole()))
            .or_else(|| place("counts", self.counts.whole(), expected.counts.whole()))
    }
}

/// The marks of a buffer of floats.
fn floats(tag: u64) -> impl Fn(usize) -> u64 {
    move |place| (0x7ffc + tag) << 48 | place as u64
}

/// The marks of a buffer of codes.
fn code(place: usize) -> u8 {
    0x80 | place as u8
}

/// Places are counted from the first that is lent: a guard before it has a negative number.
fn place<T: PartialEq + LowerHex>(name: &str, ours: &[T], expected: &[T]) -> Option<String> {
    let at = ours.iter().zip(expected).position(|(o, e)| o != e)?;
    let (o, e) = (&ours[at], &expected[at]);
    let from_lent = at as isize - GUARD as isize;
    Some(format!(
        "{name} has {o:#x} at place {from_lent}, expected {e:#x}"
    ))
}
