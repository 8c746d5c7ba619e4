//! What is asked of both sides, and what the library is lent to answer it.

use std::fmt;

use ndarray_ndimage::BorderMode;

#[derive(Clone, Copy, Debug, PartialEq)]
pub enum Entry {
    Shift,
    Zoom,
    SplineFilter,
    SplineFilter1d,
}

pub const ENTRIES: [Entry; 4] = [
    Entry::Shift,
    Entry::Zoom,
    Entry::SplineFilter,
    Entry::SplineFilter1d,
];

impl Entry {
    pub fn name(self) -> &'static str {
        match self {
            Entry::Shift => "shift",
            Entry::Zoom => "zoom",
            Entry::SplineFilter => "spline_filter",
            Entry::SplineFilter1d => "spline_filter1d",
        }
    }

    /// Whether it moves voxels: then it has factors, codes, work and counts.
    pub fn resamples(self) -> bool {
        matches!(self, Entry::Shift | Entry::Zoom)
    }
}

/// The border modes by their numbers in the door for C.
pub const CONSTANT: u32 = 0;
pub const MIRROR: u32 = 1;
pub const NEAREST: u32 = 2;
pub const REFLECT: u32 = 3;
pub const WRAP: u32 = 4;
pub const REPLICATE: u32 = 5;

pub const MODES: [u32; 6] = [CONSTANT, MIRROR, NEAREST, REFLECT, WRAP, REPLICATE];

/// A border mode: the Rust's five, and document 02's (#104).
#[derive(Clone, Copy, Debug, PartialEq)]
pub enum Mode {
    Constant(f64),
    Mirror,
    Nearest,
    Reflect,
    Wrap,
    Replicate,
}

impl Mode {
    /// The mode of a number. Constant alone has the fill.
    pub fn of(number: u32, fill: f64) -> Option<Mode> {
        match number {
            CONSTANT => Some(Mode::Constant(fill)),
            MIRROR => Some(Mode::Mirror),
            NEAREST => Some(Mode::Nearest),
            REFLECT => Some(Mode::Reflect),
            WRAP => Some(Mode::Wrap),
            REPLICATE => Some(Mode::Replicate),
            _ => None,
        }
    }

    /// The Rust's mode with the same prefilter, pad and neighbours. The Rust has no Replicate, which
    /// has them of Nearest.
    pub fn rusts(self) -> BorderMode<f64> {
        match self {
            Mode::Constant(fill) => BorderMode::Constant(fill),
            Mode::Mirror => BorderMode::Mirror,
            Mode::Nearest | Mode::Replicate => BorderMode::Nearest,
            Mode::Reflect => BorderMode::Reflect,
            Mode::Wrap => BorderMode::Wrap,
        }
    }
}

/// The numbers of a request. An entry reads those that it has arguments for.
#[derive(Clone, Copy)]
pub struct Asked {
    pub entry: Entry,
    pub dims: [usize; 3],
    pub factors: [f64; 3],
    pub order: usize,
    pub axis: usize,
    pub prefilter: u32,
    pub mode: u32,
    pub fill: f64,
}

/// How many places each buffer has; `input` has its own length.
#[derive(Clone, Copy)]
pub struct Lengths {
    pub output: usize,
    pub coverage: usize,
    pub work: usize,
    pub counts: usize,
}

pub struct Request {
    pub asked: Asked,
    pub input: Vec<f64>,
    pub lengths: Lengths,
}

/// One voxel of a request, asked for alone (document 02, #105): its index, and how many places its value and
/// its code are lent.
#[derive(Clone, Copy, Debug, PartialEq)]
pub struct Alone {
    pub at: [usize; 3],
    pub values: usize,
    pub codes: usize,
}

impl Alone {
    /// With the one place that each of the two takes.
    pub fn at(at: [usize; 3]) -> Alone {
        Alone {
            at,
            values: 1,
            codes: 1,
        }
    }
}

/// As a line that `oracle ask` reads, floats by their bits; below it, what that line cannot say.
impl fmt::Display for Request {
    fn fmt(&self, f: &mut fmt::Formatter) -> fmt::Result {
        let asked = &self.asked;
        let [d0, d1, d2] = asked.dims;
        write!(f, "{} dims {d0} {d1} {d2}", asked.entry.name())?;
        if asked.entry.resamples() {
            let [f0, f1, f2] = asked.factors.map(f64::to_bits);
            write!(f, " factors {f0:#018x} {f1:#018x} {f2:#018x}")?;
            write!(f, " prefilter {}", u32::from(asked.prefilter != 0))?;
        }
        if asked.entry == Entry::SplineFilter1d {
            write!(f, " axis {}", asked.axis)?;
        }
        write!(f, " order {} mode ", asked.order)?;
        match asked.mode {
            CONSTANT => write!(f, "constant {:#018x}", asked.fill.to_bits())?,
            MIRROR => write!(f, "mirror")?,
            NEAREST => write!(f, "nearest")?,
            REFLECT => write!(f, "reflect")?,
            WRAP => write!(f, "wrap")?,
            REPLICATE => write!(f, "replicate")?,
            unknown => write!(f, "{unknown}")?,
        }
        write!(f, " input")?;
        for voxel in &self.input {
            write!(f, " {:#018x}", voxel.to_bits())?;
        }
        let lent = &self.lengths;
        write!(
            f,
            "\nprefilter given as {}; lent: input {} output {} coverage {} work {} counts {}",
            asked.prefilter,
            self.input.len(),
            lent.output,
            lent.coverage,
            lent.work,
            lent.counts
        )
    }
}
