//! Document 01 in plain Rust: the lengths of buffers, and the number that a request is answered
//! with; the counts are four since document 02's #103, the modes six since #104, one voxel may be asked
//! for since #105, and an axis may have length 1 since #106. The fold alone is the Rust's own, as document 01
//! has it.

use ndarray_ndimage::probe::map_coordinates;
use ndarray_ndimage::BorderMode;

use crate::request::{Alone, Asked, Entry, Lengths, Mode, Request};

/// The most places of a volume or of work.
const MOST_PLACES: usize = 1 << 27;
/// The largest size of a value.
pub const LARGEST: f64 = (1u128 << 100) as f64;
/// The size that a shift stays below.
pub const FARTHEST: f64 = (1 << 20) as f64;
/// How many codes there are, and places of the counts.
pub const CODES: usize = 4;
/// The answer to a mode that is none of the six.
pub const UNKNOWN_MODE: u32 = 255;
/// The answer to one voxel whose index lies outside the output (document 02, #105).
pub const OUTSIDE: u32 = 11;
/// The answer to an axis of length 1 that is moved, or zoomed to another length (document 02, #106).
pub const MOVED_SINGLE: u32 = 12;

/// Whether a refusal applies, asked only where no earlier one does.
type Applies = fn(&Request) -> bool;

/// The refusals in the documents' order. Without a mode there is no request, so that this comes first.
const REFUSALS: [(u32, Applies); 11] = [
    (UNKNOWN_MODE, |request| request.asked.mode().is_none()),
    (1, order_refused),
    (2, axis_refused),
    (3, length_refused),
    (4, factor_refused),
    (MOVED_SINGLE, single_refused),
    (5, output_length_refused),
    (6, count_refused),
    (7, buffer_refused),
    (8, value_refused),
    (9, coordinate_refused),
];

/// The number of the answer: the first refusal that applies, or 0.
pub fn answer(request: &Request) -> u32 {
    let refusal = REFUSALS.iter().find(|(_, applies)| applies(request));
    refusal.map_or(0, |(number, _)| *number)
}

/// Whether one refusal is settled before another.
pub fn comes_before(earlier: u32, later: u32) -> bool {
    let place = |number| REFUSALS.iter().position(|(n, _)| *n == number);
    place(earlier) < place(later)
}

/// The number of the answer to one voxel of the request: that of the volume's call, were its own buffers
/// looked at; and after all of these, 11.
pub fn answer_alone(request: &Request, alone: &Alone) -> u32 {
    let refusal = REFUSALS.iter().find(|(number, applies)| match number {
        7 => buffer_refused_alone(request, alone),
        _ => applies(request),
    });
    match refusal {
        Some((number, _)) => *number,
        None if index_refused(&request.asked, alone) => OUTSIDE,
        None => 0,
    }
}

fn order_refused(Request { asked, .. }: &Request) -> bool {
    asked.order > 5 || asked.entry == Entry::SplineFilter && asked.order < 2
}

fn axis_refused(Request { asked, .. }: &Request) -> bool {
    asked.entry == Entry::SplineFilter1d && asked.axis > 2
}

fn length_refused(Request { asked, .. }: &Request) -> bool {
    !asked.dims.into_iter().all(is_length)
}

fn factor_refused(Request { asked, .. }: &Request) -> bool {
    match asked.entry {
        Entry::Shift => !asked.factors.into_iter().all(is_shift),
        Entry::Zoom => !asked.factors.into_iter().all(is_zoom),
        Entry::SplineFilter | Entry::SplineFilter1d => false,
    }
}

/// Only `shift` and `zoom` move an axis.
fn single_refused(Request { asked, .. }: &Request) -> bool {
    (0..3).any(|axis| {
        asked.is_single(axis)
            && match asked.entry {
                Entry::Shift => asked.factors[axis] != 0.0,
                _ => asked.output_dims()[axis] != 1,
            }
    })
}

fn output_length_refused(Request { asked, .. }: &Request) -> bool {
    let outputs = asked.output_dims();
    (0..3).any(|axis| !asked.is_single(axis) && !is_longer(outputs[axis]))
}

fn count_refused(Request { asked, .. }: &Request) -> bool {
    let counts = [
        count(asked.dims),
        count(asked.output_dims()),
        asked.needed(),
    ];
    counts.into_iter().any(|count| count > MOST_PLACES)
}

fn buffer_refused(request: &Request) -> bool {
    let (asked, lent) = (&request.asked, &request.lengths);
    let right = asked.lengths();
    request.input.len() != count(asked.dims)
        || lent.output != right.output
        || asked.entry.resamples()
            && (lent.coverage != right.coverage
                || lent.work < right.work
                || lent.counts != right.counts)
}

/// Value and code have a place each; of the volume's other buffers there is work.
fn buffer_refused_alone(request: &Request, alone: &Alone) -> bool {
    let asked = &request.asked;
    request.input.len() != count(asked.dims)
        || request.lengths.work < asked.needed()
        || (alone.values, alone.codes) != (1, 1)
}

fn index_refused(asked: &Asked, alone: &Alone) -> bool {
    let lengths = asked.output_dims();
    (0..3).any(|axis| alone.at[axis] >= lengths[axis])
}

fn value_refused(Request { asked, input, .. }: &Request) -> bool {
    let has_fill = matches!(asked.mode(), Some(Mode::Constant(_)));
    has_fill && !is_value(&asked.fill) || !input.iter().all(is_value)
}

fn coordinate_refused(Request { asked, .. }: &Request) -> bool {
    asked.entry.resamples() && asked.order == 0 && (0..3).any(|axis| beside(asked, axis))
}

fn is_length(length: usize) -> bool {
    length == 1 || is_longer(length)
}

/// Of an axis that may be filtered, padded, folded and moved.
fn is_longer(length: usize) -> bool {
    (2..=4096).contains(&length)
}

fn is_shift(shift: f64) -> bool {
    shift.abs() < FARTHEST
}

fn is_zoom(factor: f64) -> bool {
    factor > 0.0 && factor <= 4096.0
}

fn is_value(value: &f64) -> bool {
    value.abs() <= LARGEST
}

/// Whether a coordinate of the axis is kept, but rounds to an index outside. Order 0 never pads.
fn beside(asked: &Asked, axis: usize) -> bool {
    let length = asked.dims[axis] as f64;
    (0..asked.output_dims()[axis]).any(|index| {
        let at = asked.settled(axis, index);
        let nearest = (at + 0.5).floor();
        at > -1.0 && !(0.0 <= nearest && nearest < length)
    })
}

/// The product, or the largest number there is.
pub fn count(dims: [usize; 3]) -> usize {
    dims.into_iter().fold(1, usize::saturating_mul)
}

/// Where the voxel of an index stands.
pub fn place([_, d1, d2]: [usize; 3], [x, y, z]: [usize; 3]) -> usize {
    (x * d1 + y) * d2 + z
}

/// Every index, in the order of memory.
pub fn indices(dims: [usize; 3]) -> impl Iterator<Item = [usize; 3]> {
    let [_, d1, d2] = dims;
    (0..count(dims)).map(move |place| [place / (d1 * d2), place / d2 % d1, place % d2])
}

fn zoomed(length: usize, factor: f64) -> usize {
    (length as f64 * factor).round_ties_even() as usize
}

/// What `vurelika_zoom_length` gives: 0 where refusal 3, 4, 12 or 5 applies.
pub fn zoom_length(length: usize, factor: f64) -> usize {
    let outputs = zoomed(length, factor);
    let taken = match length {
        1 => outputs == 1,
        _ => is_longer(length) && is_longer(outputs),
    };
    if taken && is_zoom(factor) {
        outputs
    } else {
        0
    }
}

/// What `vurelika_work_count` gives: 0 where the mode is unknown or refusal 1 or 3 applies.
pub fn work_count(asked: &Asked) -> usize {
    let taken = asked.mode().is_some() && asked.order <= 5 && asked.dims.into_iter().all(is_length);
    if taken {
        asked.resampling_work()
    } else {
        0
    }
}

impl Asked {
    /// The border mode that the numbers name.
    pub fn mode(&self) -> Option<Mode> {
        Mode::of(self.mode, self.fill)
    }

    pub fn output_dims(&self) -> [usize; 3] {
        match self.entry {
            Entry::Zoom => [0, 1, 2].map(|axis| zoomed(self.dims[axis], self.factors[axis])),
            _ => self.dims,
        }
    }

    /// Whether the axis has length 1.
    pub fn is_single(&self, axis: usize) -> bool {
        self.dims[axis] == 1
    }

    pub fn has_single(&self) -> bool {
        (0..3).any(|axis| self.is_single(axis))
    }

    /// The request with some axes left still: by shift 0 or factor 1.
    pub fn still(&self, which: [bool; 3]) -> Asked {
        let unmoved = match self.entry {
            Entry::Zoom => 1.0,
            _ => 0.0,
        };
        let mut still = *self;
        for axis in (0..3).filter(|axis| which[*axis]) {
            still.factors[axis] = unmoved;
        }
        still
    }

    /// The coordinate of an output index before any pad, fold or clamp. On an axis of length 1 it is 0, which
    /// none of them moves.
    pub fn coordinate(&self, axis: usize, index: usize) -> f64 {
        let (shift, ratio) = match self.entry {
            _ if self.is_single(axis) => return 0.0,
            Entry::Shift => (-self.factors[axis], 1.0),
            _ => {
                let (length, outputs) = (self.dims[axis], self.output_dims()[axis]);
                (0.0, (length - 1) as f64 / (outputs - 1) as f64)
            }
        };
        (index as f64 + shift) * ratio
    }

    /// The coordinate after the mode's fold, or after Replicate's clamp. Nearest is not folded.
    pub fn settled(&self, axis: usize, index: usize) -> f64 {
        let (at, length) = (self.coordinate(axis, index), self.dims[axis] as f64);
        match self.mode() {
            None | Some(Mode::Nearest) => at,
            Some(Mode::Replicate) => at.clamp(0.0, length - 1.0),
            Some(mode) => map_coordinates(at, length, mode.rusts()),
        }
    }

    /// Whether the prefilter pads the volume in this mode.
    fn pads(&self) -> bool {
        self.mode().map(Mode::rusts) == Some(BorderMode::Nearest)
    }

    /// Whether `shift` and `zoom` filter the voxels first.
    pub fn filters(&self) -> bool {
        self.prefilter != 0 && self.order > 1
    }

    /// The lengths of what the sums read. An axis of length 1 has no pad.
    pub fn source_dims(&self) -> [usize; 3] {
        let is_padded = self.filters() && self.pads();
        self.dims.map(|length| match length {
            2.. if is_padded => length.saturating_add(24),
            _ => length,
        })
    }

    /// The places of work that `shift` and `zoom` need, were there no refusal.
    fn resampling_work(&self) -> usize {
        if self.filters() {
            count(self.source_dims())
        } else {
            0
        }
    }

    /// The places of work needed; the filters need none.
    pub fn needed(&self) -> usize {
        if self.entry.resamples() {
            self.resampling_work()
        } else {
            0
        }
    }

    /// The right lengths of the buffers.
    pub fn lengths(&self) -> Lengths {
        let voxels = count(self.output_dims());
        Lengths {
            output: voxels,
            coverage: voxels,
            work: self.needed(),
            counts: CODES,
        }
    }
}
