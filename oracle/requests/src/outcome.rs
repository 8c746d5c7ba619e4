//! What a call leaves: the number it returns, and every place of every buffer. Two of them are
//! compared bit for bit.

use std::fmt::Debug;

use crate::lent::Lent;

#[derive(Clone)]
pub struct Outcome {
    pub status: u32,
    /// `vurelika_zoom_length` of each axis and its factor.
    pub zoom_lengths: [usize; 3],
    /// `vurelika_work_count`.
    pub work_count: usize,
    pub lent: Lent,
}

impl Outcome {
    /// The first difference from what is expected, in words.
    pub fn difference(&self, expected: &Outcome) -> Option<String> {
        number("the answer", self.status, expected.status)
            .or_else(|| number("zoom_length", self.zoom_lengths, expected.zoom_lengths))
            .or_else(|| number("work_count", self.work_count, expected.work_count))
            .or_else(|| self.lent.difference(&expected.lent))
    }
}

pub(crate) fn number<T: PartialEq + Debug>(name: &str, ours: T, expected: T) -> Option<String> {
    (ours != expected).then(|| format!("{name} is {ours:?}, expected {expected:?}"))
}
