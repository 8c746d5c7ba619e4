//! Resampling of volumes of `f64` on three axes, in which each output voxel is marked as computed,
//! computed with a folded neighbour, or filled: a safe layer over the proved library `libvurelika.a`.
//!
//! A volume is a flat slice, last index fastest; [`npy`] reads and writes it as NumPy's files have it. A
//! call ends in success or in a [refusal](Refusal), whatever numbers and slices it is given; it does not
//! panic. It takes at most about 413 kB of stack. As all of Rust it counts on the default floating-point environment: numbers are
//! rounded to nearest, subnormal numbers are kept. C code in the same program may have changed it, by
//! `fesetround` or by being linked with `-ffast-math`; values, codes and counts may then be other ones.
//!
//! ```
//! use vurelika::{shift, BorderMode, Request, COMPUTED, FILLED};
//!
//! let lanes = [10.0, 20.0, 30.0, 40.0].repeat(4);
//! let request = Request {
//!     dims: [2, 2, 4],
//!     factors: [0.0, 0.0, 1.0],
//!     order: 1,
//!     prefilter: true,
//!     mode: BorderMode::Constant(-1.0),
//! };
//! let moved = shift(&request, &lanes)?;
//! assert_eq!(moved.voxels[..4], [-1.0, 10.0, 20.0, 30.0]);
//! assert_eq!(moved.coverage[..4], [FILLED, COMPUTED, COMPUTED, COMPUTED]);
//! assert_eq!((moved.counts.computed, moved.counts.filled), (12, 4));
//!
//! // A density is that of the voxels of code 0; in Constant these come from inside the scan alone.
//! let marked = moved.voxels.iter().zip(&moved.coverage);
//! let sum: f64 = marked.filter(|(_, &code)| code == COMPUTED).map(|(voxel, _)| voxel).sum();
//! assert_eq!(sum / moved.counts.computed as f64, 20.0);
//! # Ok::<(), vurelika::Refusal>(())
//! ```
//!
//! # Single slices
//!
//! An axis may have length 1: a radiograph is a volume of 1 by rows by columns, and a single lane and a single
//! voxel are volumes too. Such an axis takes the shift 0.0 or -0.0, or a zoom that leaves it 1, whose factor is
//! above 0.5 and below 1.5; else the call is refused as [`Refusal::Slice`]. It is not filtered, not padded and not
//! folded, whatever the mode and order: its one voxel enters with a single weight of exactly 1. So it drops no
//! voxel, gives none the code [`FOLDED`], and never meets [`Refusal::Beside`].
//!
//! ```
//! use vurelika::{shift, BorderMode, Refusal, Request, COMPUTED, FOLDED};
//!
//! let radiograph = [10.0, 20.0, 30.0, 40.0].repeat(3);
//! let by = |factors| Request {
//!     dims: [1, 3, 4],
//!     factors,
//!     order: 1,
//!     prefilter: true,
//!     mode: BorderMode::Constant(-1.0),
//! };
//! let half = shift(&by([0.0, 0.0, -0.5]), &radiograph)?;
//! assert_eq!(half.dims, [1, 3, 4]);
//! assert_eq!(half.voxels[..4], [15.0, 25.0, 35.0, 35.0]);
//! assert_eq!(half.coverage[..4], [COMPUTED, COMPUTED, COMPUTED, FOLDED]);
//!
//! let across = shift(&by([0.5, 0.0, 0.0]), &radiograph);
//! assert_eq!(across, Err(Refusal::Slice));
//! # Ok::<(), Refusal>(())
//! ```

mod door;
pub mod npy;
mod refusal;

use door::Entry;
pub use refusal::Refusal;

/// The code of a voxel that was computed from voxels of the scan, each in its own place.
///
/// In mode Constant its place lay in the scan: on each axis from 0 up to, not including, the length. In
/// the other modes this code does not say so: a place beyond the scan is folded back into it, or clamped
/// to its edge, and computed there, and that is not remarked. After a shift by 13.5 on an axis of 20, 14
/// planes come from before the scan. At order 1 Constant gives this code to 6 of the 20, Nearest to 6,
/// with [`FOLDED`] at one more, Reflect to 19, with [`FOLDED`] at one, and Mirror, Wrap and Replicate to
/// all of them: in Replicate 14 are the edge again. So for a density choose Constant, and count the voxels
/// of this code alone.
pub const COMPUTED: u8 = 0;

/// The code of a voxel outside, in mode Constant: it holds the fill, bit for bit.
pub const FILLED: u8 = 1;

/// The code of a voxel outside, in another mode: it holds 0.0. Never in Replicate.
pub const DEFAULTED: u8 = 2;

/// The code of a voxel that was computed, but on some axis a neighbour with a weight other than 0 lay
/// outside the scan and was folded back: it blends in a voxel that stands elsewhere.
///
/// As with [`COMPUTED`], in mode Constant alone its place lay in the scan. At order 0 there is none.
///
/// ```
/// # use vurelika::{shift, BorderMode, Request, COMPUTED, FOLDED};
/// let request = Request {
///     dims: [2, 2, 4],
///     factors: [0.0, 0.0, -0.5],
///     order: 1,
///     prefilter: false,
///     mode: BorderMode::Constant(-1.0),
/// };
/// let half = shift(&request, &[10.0, 20.0, 30.0, 40.0].repeat(4))?;
/// assert_eq!(half.voxels[..4], [15.0, 25.0, 35.0, 35.0]);
/// assert_eq!(half.coverage[..4], [COMPUTED, COMPUTED, COMPUTED, FOLDED]);
/// assert_eq!((half.counts.computed, half.counts.folded), (12, 4));
/// # Ok::<(), vurelika::Refusal>(())
/// ```
pub const FOLDED: u8 = 3;

/// What a coordinate outside the volume stands for.
///
/// Whoever wants SciPy's `mode='nearest'` wants [`Replicate`](BorderMode::Replicate).
///
/// ```
/// # use vurelika::{shift, BorderMode, Request};
/// let by_2 = |mode| {
///     let request = Request {
///         dims: [2, 2, 4],
///         factors: [0.0, 0.0, 2.0],
///         order: 1,
///         prefilter: false,
///         mode,
///     };
///     shift(&request, &[10.0, 20.0, 30.0, 40.0].repeat(4))
/// };
/// let repeated = by_2(BorderMode::Replicate)?;
/// assert_eq!(repeated.voxels[..4], [10.0, 10.0, 10.0, 20.0]);
/// assert_eq!(repeated.coverage[..4], [0, 0, 0, 0]);
///
/// let dropped = by_2(BorderMode::Nearest)?;
/// assert_eq!(dropped.voxels[..4], [0.0, 0.0, 10.0, 20.0]);
/// assert_eq!(dropped.coverage[..4], [2, 2, 0, 0]);
/// # Ok::<(), vurelika::Refusal>(())
/// ```
#[derive(Clone, Copy, Debug, PartialEq)]
pub enum BorderMode {
    /// Nothing: such a voxel takes this fill.
    Constant(f64),
    /// The volume mirrored about its end voxels.
    Mirror,
    /// The edge voxel as the Rust has it, whose numbers this mode keeps: at coordinates at or below -1
    /// (-13 where the voxels are filtered first) a voxel holds 0.0, with the code [`DEFAULTED`].
    Nearest,
    /// The volume mirrored about its outer faces.
    Reflect,
    /// The volume again, first and last voxel as one.
    Wrap,
    /// The edge voxel: the coordinate is clamped to the volume before anything else. No voxel is dropped,
    /// and no call is refused as [`Refusal::Beside`]. Above order 1 it stands still beyond the volume,
    /// where SciPy and Nearest go on along the spline. At orders 0 and 1 every voxel bears [`COMPUTED`],
    /// which says nothing of where its place lay: for a density choose Constant.
    Replicate,
}

/// What is asked for.
#[derive(Clone, Copy, Debug, PartialEq)]
pub struct Request {
    /// The lengths of the input's axes, each 1 to 4,096.
    pub dims: [usize; 3],
    /// A shift or a zoom factor for each axis; of an axis of length 1 the shift is 0, or the factor above
    /// 0.5 and below 1.5. The filters do not read them.
    pub factors: [f64; 3],
    /// The order of the spline, 0 (the nearest voxel) to 5.
    pub order: usize,
    /// Whether orders 2 to 5 filter the voxels first. The filters do not read it.
    pub prefilter: bool,
    /// What stands outside the volume.
    pub mode: BorderMode,
}

impl Request {
    /// What [`shift_into`] has to be lent; or the refusal that it would give whatever it is lent,
    /// one that comes before [`Refusal::Buffer`].
    ///
    /// ```
    /// # use vurelika::{BorderMode, Refusal, Request};
    /// let mut request = Request {
    ///     dims: [1, 512, 512],
    ///     factors: [0.0, 1.5, 0.0],
    ///     order: 3,
    ///     prefilter: true,
    ///     mode: BorderMode::Replicate,
    /// };
    /// // 12 edge copies on each side, of the axes that are longer than 1
    /// assert_eq!(request.shift_sizes()?.work, 536 * 536);
    ///
    /// request.factors[0] = 1.5;
    /// assert_eq!(request.shift_sizes(), Err(Refusal::Slice));
    /// # Ok::<(), Refusal>(())
    /// ```
    pub fn shift_sizes(&self) -> Result<Sizes, Refusal> {
        self.sizes(Entry::Shift)
    }

    /// What [`zoom_into`] has to be lent; or the refusal that it would give whatever it is lent,
    /// one that comes before [`Refusal::Buffer`].
    ///
    /// ```
    /// # use vurelika::{BorderMode, Refusal, Request};
    /// let mut request = Request {
    ///     dims: [2, 2, 4],
    ///     factors: [1.0, 1.0, 1.75],
    ///     order: 3,
    ///     prefilter: true,
    ///     mode: BorderMode::Mirror,
    /// };
    /// let sizes = request.zoom_sizes()?;
    /// assert_eq!(sizes.dims, [2, 2, 7]);
    /// assert_eq!((sizes.input, sizes.output, sizes.work), (16, 28, 16));
    ///
    /// request.factors[0] = 0.5; // no axis is zoomed down to 1
    /// assert_eq!(request.zoom_sizes(), Err(Refusal::OutputLength));
    /// # Ok::<(), Refusal>(())
    /// ```
    pub fn zoom_sizes(&self) -> Result<Sizes, Refusal> {
        self.sizes(Entry::Zoom)
    }

    fn sizes(&self, entry: Entry) -> Result<Sizes, Refusal> {
        // A call that is lent nothing is refused, at the latest for its buffers. Past that the counts
        // are known to be small.
        Refusal::before_buffers(entry.call(self, &[], &mut [], &mut [], &mut []))?;
        let dims = match entry {
            Entry::Shift => self.dims,
            Entry::Zoom => door::zoom_dims(self),
        };
        Ok(Sizes {
            dims,
            input: self.dims.iter().product(),
            output: dims.iter().product(),
            work: door::work_count(self),
        })
    }
}

/// How much a call is lent.
#[derive(Clone, Copy, Debug, PartialEq, Eq)]
pub struct Sizes {
    /// The lengths of the output's axes.
    pub dims: [usize; 3],
    /// Places of the input.
    pub input: usize,
    /// Places of the output and of the coverage.
    pub output: usize,
    /// Places of work, at least.
    pub work: usize,
}

/// How many voxels bear each code; together as many as the output has.
#[derive(Clone, Copy, Debug, PartialEq, Eq)]
pub struct Counts {
    /// Voxels with the code [`COMPUTED`].
    pub computed: u64,
    /// Voxels with the code [`FILLED`].
    pub filled: u64,
    /// Voxels with the code [`DEFAULTED`].
    pub defaulted: u64,
    /// Voxels with the code [`FOLDED`].
    pub folded: u64,
}

/// A volume as a file holds it.
#[derive(Clone, Debug, PartialEq)]
pub struct Volume {
    /// The lengths of its axes.
    pub dims: [usize; 3],
    /// Its voxels, last index fastest.
    pub voxels: Vec<f64>,
}

/// A volume that came out.
#[derive(Clone, Debug, PartialEq)]
pub struct Resampled {
    /// The lengths of its axes.
    pub dims: [usize; 3],
    /// Its voxels, last index fastest.
    pub voxels: Vec<f64>,
    /// The code of each voxel.
    pub coverage: Vec<u8>,
    /// How many voxels bear each code.
    pub counts: Counts,
}

/// One voxel of a volume that comes out.
#[derive(Clone, Copy, Debug, PartialEq)]
pub struct Voxel {
    /// Its value, with the bits that it has in the volume.
    pub value: f64,
    /// Its code.
    pub code: u8,
}

/// What one axis gives to one output index.
///
/// A voxel that some axis drops is the fill in Constant, and else 0.0. At order 0 the one voxel at the
/// three neighbours is copied. Else the sum starts at 0.0 and adds voxel * (x weight * (y weight * z
/// weight)) for all neighbours, those of axis 2 outermost and those of axis 0 innermost. The voxels are
/// those of the input; where orders 2 to 5 prefilter, they are the coefficients in work, a volume whose
/// axes have the input's lengths, or in Nearest and Replicate 24 more where they are longer than 1.
#[derive(Clone, Copy, Debug, PartialEq)]
pub struct Point {
    /// The coordinate as it stands once the mode has folded it, on the axis as padded: where orders 2 to 5
    /// prefilter in Nearest and Replicate, 12 edge copies stand on each side of an axis longer than 1, and 12
    /// is added.
    pub coordinate: f64,
    /// The neighbours' indices, on the axis as padded and folded back into it. The first order + 1 count, of
    /// an axis of length 1 the first alone; the rest are 0, and all are where the index is dropped.
    pub neighbours: [usize; NEIGHBOURS],
    /// Their weights; of an axis of length 1 exactly 1. The rest are 0.0, and all are where the index is
    /// dropped.
    pub weights: [f64; NEIGHBOURS],
}

impl Point {
    /// Whether the index is kept, and not dropped: its coordinate is above -1.
    pub fn is_kept(&self) -> bool {
        self.coordinate > -1.0
    }
}

/// How many neighbours an axis has at most: order + 1, and the order is at most 5.
pub const NEIGHBOURS: usize = vurelika_sys::VURELIKA_NEIGHBOURS;

/// Shifts a volume: the output voxel at index i of an axis is the input at i less the axis's factor.
///
/// ```
/// # use vurelika::{shift, BorderMode, Refusal, Request};
/// let request = Request {
///     dims: [2, 2, 4],
///     factors: [0.0, 0.0, -0.5],
///     order: 0,
///     prefilter: false,
///     mode: BorderMode::Constant(-1.0),
/// };
/// let refusal = shift(&request, &[0.0; 16]).unwrap_err();
/// assert_eq!(refusal, Refusal::Beside);
/// assert_eq!(
///     refusal.to_string(),
///     "refusal 9: at order 0 a coordinate is kept, but its nearest voxel lies outside",
/// );
/// ```
pub fn shift(request: &Request, input: &[f64]) -> Result<Resampled, Refusal> {
    resample(Entry::Shift, request, input)
}

/// Zooms a volume by the factors. No axis comes out with length 1 but one that has it.
///
/// ```
/// # use vurelika::{zoom, BorderMode, Request};
/// let request = Request {
///     dims: [2, 2, 4],
///     factors: [1.0, 1.0, 1.75],
///     order: 1,
///     prefilter: false,
///     mode: BorderMode::Mirror,
/// };
/// let finer = zoom(&request, &[10.0, 20.0, 30.0, 40.0].repeat(4))?;
/// assert_eq!(finer.dims, [2, 2, 7]);
/// assert_eq!(finer.voxels[..7], [10.0, 15.0, 20.0, 25.0, 30.0, 35.0, 40.0]);
///
/// // a radiograph: its first axis stays 1 for factors above 0.5 and below 1.5
/// let slice = Request { dims: [1, 2, 4], ..request };
/// assert_eq!(zoom(&slice, &[10.0, 20.0, 30.0, 40.0].repeat(2))?.dims, [1, 2, 7]);
/// # Ok::<(), vurelika::Refusal>(())
/// ```
pub fn zoom(request: &Request, input: &[f64]) -> Result<Resampled, Refusal> {
    resample(Entry::Zoom, request, input)
}

fn resample(entry: Entry, request: &Request, input: &[f64]) -> Result<Resampled, Refusal> {
    let sizes = request.sizes(entry)?;
    if input.len() != sizes.input {
        return Err(Refusal::Buffer); // before room is made for what would not be written
    }
    let mut voxels = vec![0.0; sizes.output];
    let mut coverage = vec![0; sizes.output];
    let mut work = vec![0.0; sizes.work];
    let counts = entry.call(request, input, &mut voxels, &mut coverage, &mut work)?;
    Ok(Resampled {
        dims: sizes.dims,
        voxels,
        coverage,
        counts,
    })
}

/// [`shift`] over lent slices, of the lengths that [`Request::shift_sizes`] gives; allocates nothing.
///
/// On success `output` and `coverage` are written fully, and `work` begins with the filtered
/// coefficients. On refusal all three hold what they held.
///
/// ```
/// # use vurelika::{shift_into, BorderMode, Request};
/// let request = Request {
///     dims: [2, 2, 4],
///     factors: [0.0, 0.0, 2.0],
///     order: 1,
///     prefilter: true,
///     mode: BorderMode::Nearest,
/// };
/// let (mut output, mut coverage) = ([f64::NAN; 16], [255; 16]);
/// let input = [10.0, 20.0, 30.0, 40.0].repeat(4);
/// let counts = shift_into(&request, &input, &mut output, &mut coverage, &mut [])?;
/// assert_eq!(output[..4], [0.0, 0.0, 10.0, 20.0]);
/// assert_eq!(coverage[..4], [2, 2, 0, 0]);
/// assert_eq!(counts.defaulted, 8);
/// # Ok::<(), vurelika::Refusal>(())
/// ```
pub fn shift_into(
    request: &Request,
    input: &[f64],
    output: &mut [f64],
    coverage: &mut [u8],
    work: &mut [f64],
) -> Result<Counts, Refusal> {
    Entry::Shift.call(request, input, output, coverage, work)
}

/// [`zoom`] over lent slices, of the lengths that [`Request::zoom_sizes`] gives; all else is as with
/// [`shift_into`].
///
/// ```
/// # use vurelika::{zoom_into, BorderMode, Request};
/// let request = Request {
///     dims: [2, 2, 3],
///     factors: [1.0, 1.0, 0.5],
///     order: 2,
///     prefilter: true,
///     mode: BorderMode::Mirror,
/// };
/// let sizes = request.zoom_sizes()?;
/// let mut output = vec![f64::NAN; sizes.output];
/// let mut coverage = vec![255; sizes.output];
/// let mut work = vec![f64::NAN; sizes.work];
/// let counts = zoom_into(&request, &[0.0; 12], &mut output, &mut coverage, &mut work)?;
/// assert_eq!(output, [0.0; 8]);
/// assert_eq!(counts.folded, 8); // on axes of 2 order 2 always has a neighbour outside
/// # Ok::<(), vurelika::Refusal>(())
/// ```
pub fn zoom_into(
    request: &Request,
    input: &[f64],
    output: &mut [f64],
    coverage: &mut [u8],
    work: &mut [f64],
) -> Result<Counts, Refusal> {
    Entry::Zoom.call(request, input, output, coverage, work)
}

/// One voxel of what [`shift`] gives, worked out afresh, to recheck it where there is no room for the volume
/// that comes out. `at` is its index on each axis of the output.
///
/// Where orders 2 to 5 prefilter, the sum reads the coefficients in `work`, of which [`Request::shift_sizes`]
/// says how many there are; else `work` may be empty. They are to be those that [`shift_into`] or
/// [`zoom_into`] leaves there: any call of either that succeeds leaves the same ones, as long as the input is
/// the same, and the request in all but its factors and its fill. Other numbers are taken too; the value is
/// then the sum over those.
///
/// The refusals are those of [`shift_into`], in their order, and after them [`Refusal::Index`]. All of the
/// input is looked at for [`Refusal::Value`], also where `work` alone is read, and every index of an axis for
/// [`Refusal::Beside`].
///
/// ```
/// # use vurelika::{shift_into, shift_voxel, BorderMode, Refusal, Request};
/// let request = Request {
///     dims: [2, 2, 4],
///     factors: [0.0, 0.0, 0.5],
///     order: 3,
///     prefilter: true,
///     mode: BorderMode::Nearest,
/// };
/// let input = [10.0, 20.0, 30.0, 40.0].repeat(4);
/// let (mut output, mut coverage) = ([0.0; 16], [0; 16]);
/// let mut work = vec![0.0; request.shift_sizes()?.work];
/// shift_into(&request, &input, &mut output, &mut coverage, &mut work)?;
///
/// let first = shift_voxel(&request, &input, &work, [0, 0, 0])?;
/// assert_eq!((first.value, first.code), (output[0], coverage[0]));
/// let beyond = shift_voxel(&request, &input, &work, [0, 0, 4]);
/// assert_eq!(beyond, Err(Refusal::Index));
/// # Ok::<(), Refusal>(())
/// ```
pub fn shift_voxel(
    request: &Request,
    input: &[f64],
    work: &[f64],
    at: [usize; 3],
) -> Result<Voxel, Refusal> {
    Entry::Shift.voxel(request, input, work, at)
}

/// One voxel of what [`zoom`] gives; all else is as with [`shift_voxel`].
///
/// ```
/// # use vurelika::{zoom_voxel, BorderMode, Request, Voxel, COMPUTED};
/// let request = Request {
///     dims: [2, 2, 4],
///     factors: [1.0, 1.0, 1.75],
///     order: 1,
///     prefilter: false,
///     mode: BorderMode::Mirror,
/// };
/// let input = [10.0, 20.0, 30.0, 40.0].repeat(4);
/// let last = zoom_voxel(&request, &input, &[], [1, 1, 6])?;
/// assert_eq!(last, Voxel { value: 40.0, code: COMPUTED });
/// # Ok::<(), vurelika::Refusal>(())
/// ```
pub fn zoom_voxel(
    request: &Request,
    input: &[f64],
    work: &[f64],
    at: [usize; 3],
) -> Result<Voxel, Refusal> {
    Entry::Zoom.voxel(request, input, work, at)
}

/// What one axis of a shift gives to one output index, so that a person can check a voxel on paper. `length`,
/// `shift` and `index` are those of the axis.
///
/// Refusals, in this order: [`Refusal::Order`], [`Refusal::Length`], [`Refusal::Factor`], [`Refusal::Slice`],
/// [`Refusal::Beside`] (at any index of this axis), [`Refusal::Index`].
///
/// ```
/// # use vurelika::{shift_point, BorderMode, Refusal};
/// let at = |index| shift_point(4, -0.5, 1, false, BorderMode::Constant(-1.0), index);
/// let last = at(3)?;
/// assert_eq!(last.coordinate, 3.5);
/// assert!(last.is_kept());
/// assert_eq!(last.neighbours[..2], [3, 2]); // voxel 4 lies outside: it is mirrored
/// assert_eq!(last.weights[..2], [0.5, 0.5]);
/// assert_eq!(at(4), Err(Refusal::Index));
///
/// // an axis of length 1, at any order and in any mode
/// let single = shift_point(1, 0.0, 5, true, BorderMode::Nearest, 0)?;
/// assert_eq!((single.coordinate, single.neighbours), (0.0, [0; 6]));
/// assert_eq!(single.weights, [1.0, 0.0, 0.0, 0.0, 0.0, 0.0]);
/// # Ok::<(), Refusal>(())
/// ```
pub fn shift_point(
    length: usize,
    shift: f64,
    order: usize,
    prefilter: bool,
    mode: BorderMode,
    index: usize,
) -> Result<Point, Refusal> {
    Entry::Shift.point(length, shift, order, prefilter, mode, index)
}

/// What one axis of a zoom gives to one output index; all else is as with [`shift_point`], but
/// [`Refusal::OutputLength`] is given too, after [`Refusal::Slice`].
///
/// ```
/// # use vurelika::{zoom_point, BorderMode};
/// let between = zoom_point(4, 1.75, 1, false, BorderMode::Mirror, 3)?;
/// assert_eq!(between.coordinate, 1.5);
/// assert_eq!(between.neighbours[..2], [1, 2]);
/// assert_eq!(between.weights[..2], [0.5, 0.5]);
/// # Ok::<(), vurelika::Refusal>(())
/// ```
pub fn zoom_point(
    length: usize,
    factor: f64,
    order: usize,
    prefilter: bool,
    mode: BorderMode,
    index: usize,
) -> Result<Point, Refusal> {
    Entry::Zoom.point(length, factor, order, prefilter, mode, index)
}

/// The spline coefficients of a volume, along all three axes. Orders 2 to 5; never pads, whatever the mode.
/// Along an axis of length 1 nothing is filtered, so a single voxel is copied, bit for bit.
///
/// ```
/// # use vurelika::{spline_filter, BorderMode, Request};
/// let request = Request {
///     dims: [2, 3, 4],
///     factors: [0.0; 3],
///     order: 3,
///     prefilter: false,
///     mode: BorderMode::Mirror,
/// };
/// let coefficients = spline_filter(&request, &[7.0; 24])?;
/// assert!(coefficients.iter().all(|c| (c - 7.0).abs() < 1e-12));
/// # Ok::<(), vurelika::Refusal>(())
/// ```
pub fn spline_filter(request: &Request, input: &[f64]) -> Result<Vec<f64>, Refusal> {
    let mut output = vec![0.0; input.len()];
    spline_filter_into(request, input, &mut output)?;
    Ok(output)
}

/// [`spline_filter`] into a lent slice, as long as the input. On refusal it holds what it held.
pub fn spline_filter_into(
    request: &Request,
    input: &[f64],
    output: &mut [f64],
) -> Result<(), Refusal> {
    door::spline_filter(request, input, output)
}

/// The spline coefficients of a volume along one axis: 0, 1 or 2. Orders 0 and 1 copy the input, and so does
/// every order along an axis of length 1, bit for bit.
///
/// ```
/// # use vurelika::{spline_filter1d, BorderMode, Refusal, Request};
/// let request = Request {
///     dims: [2, 3, 4],
///     factors: [0.0; 3],
///     order: 1,
///     prefilter: false,
///     mode: BorderMode::Wrap,
/// };
/// assert_eq!(spline_filter1d(&request, 2, &[7.0; 24])?, [7.0; 24]);
/// assert_eq!(spline_filter1d(&request, 3, &[7.0; 24]), Err(Refusal::Axis));
///
/// let radiograph = Request { dims: [1, 2, 2], order: 5, ..request };
/// assert_eq!(spline_filter1d(&radiograph, 0, &[1.0, 2.0, 3.0, 4.0])?, [1.0, 2.0, 3.0, 4.0]);
/// # Ok::<(), Refusal>(())
/// ```
pub fn spline_filter1d(request: &Request, axis: usize, input: &[f64]) -> Result<Vec<f64>, Refusal> {
    let mut output = vec![0.0; input.len()];
    spline_filter1d_into(request, axis, input, &mut output)?;
    Ok(output)
}

/// [`spline_filter1d`] into a lent slice, as long as the input. On refusal it holds what it held.
pub fn spline_filter1d_into(
    request: &Request,
    axis: usize,
    input: &[f64],
    output: &mut [f64],
) -> Result<(), Refusal> {
    door::spline_filter1d(request, axis, input, output)
}
