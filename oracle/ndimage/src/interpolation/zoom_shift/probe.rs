//! Doors to the resampler: fold, weights, tables, and the volume that the sums read.
//!
//! `Axes`, `zoom_length` and `coefficients` say again what `shift`, `zoom` and `run_zoom_shift`
//! work out in passing; the tests hold them to whole calls.

use super::*;

/// The fold of a coordinate.
pub fn map_coordinates(at: f64, length: f64, mode: BorderMode<f64>) -> f64 {
    super::map_coordinates(at, length, mode)
}

/// The weights of the `order + 1` neighbours of a coordinate.
pub fn build_splines(at: f64, order: usize) -> Vec<f64> {
    let mut weights = Array2::zeros((1, order + 1));
    super::build_splines(at, &mut weights.row_mut(0), order);
    (0..=order).map(|i| weights[(0, i)]).collect()
}

/// The output length of `zoom` on one axis.
pub fn zoom_length(length: usize, factor: f64) -> usize {
    round_ties_even(length as f64 * factor) as usize
}

/// What the sums read: the input, or the input filtered, in Nearest padded first.
pub fn coefficients(
    data: &ArrayRef3<f64>,
    order: usize,
    mode: BorderMode<f64>,
    prefilter: bool,
) -> Array3<f64> {
    match mode {
        _ if !(prefilter && order > 1) => data.map(|v| *v),
        BorderMode::Nearest => {
            let padded = pad(data, &[[12, 12]], PadMode::Edge);
            spline_filter(&padded, order, mode)
        }
        _ => spline_filter(data, order, mode),
    }
}

/// What the tables of the three axes are made from. The coordinate of an output index is
/// (index + shift) * zoom + prepad, before its fold.
pub struct Axes {
    pub idim: [usize; 3],
    pub odim: [usize; 3],
    pub zooms: [f64; 3],
    pub shifts: [f64; 3],
    pub nb_prepad: isize,
}

impl Axes {
    /// The axes of a call of `shift`.
    pub fn of_shift(
        dim: [usize; 3],
        shift: [f64; 3],
        order: usize,
        mode: BorderMode<f64>,
        prefilter: bool,
    ) -> Axes {
        Axes {
            idim: dim,
            odim: dim,
            zooms: [1.0; 3],
            shifts: shift.map(|s| -s),
            nb_prepad: nb_prepad(order, mode, prefilter),
        }
    }

    /// The axes of a call of `zoom`.
    pub fn of_zoom(
        dim: [usize; 3],
        zoom: [f64; 3],
        order: usize,
        mode: BorderMode<f64>,
        prefilter: bool,
    ) -> Axes {
        let odim = [0, 1, 2].map(|axis| zoom_length(dim[axis], zoom[axis]));
        Axes {
            idim: dim,
            odim,
            zooms: [0, 1, 2].map(|axis| (dim[axis] - 1) as f64 / (odim[axis] - 1) as f64),
            shifts: [0.0; 3],
            nb_prepad: nb_prepad(order, mode, prefilter),
        }
    }

    /// For each axis, what becomes of each output index.
    pub fn points(&self, order: usize, mode: BorderMode<f64>) -> [Vec<Point>; 3] {
        let tables = self.tables(order, mode);
        [0, 1, 2].map(|axis| {
            (0..self.odim[axis])
                .map(|at| Point::of(&tables, axis, at))
                .collect()
        })
    }

    /// The coverage code of each voxel: the gravest mark that some axis gives it.
    pub fn codes(&self, order: usize, mode: BorderMode<f64>) -> Vec<u8> {
        let [xs, ys, zs] = self.marks(order, mode);
        let mut codes = Vec::with_capacity(xs.len() * ys.len() * zs.len());
        for x in &xs {
            for y in &ys {
                codes.extend(zs.iter().map(|z| x.max(y).max(z).code(mode)));
            }
        }
        codes
    }

    /// The value and the code of one voxel, over any volume that the sums may read.
    pub fn voxel(
        &self,
        order: usize,
        mode: BorderMode<f64>,
        source: &ArrayRef3<f64>,
        at: [usize; 3],
    ) -> (f64, u8) {
        let tables = self.tables(order, mode);
        let mark = |axis: usize| {
            let point = Point::of(&tables, axis, at[axis]);
            Mark::of(&point, self.idim[axis], self.nb_prepad)
        };
        let [x, y, z] = at;
        let value = tables.interpolate(source, (x, y, z));
        (value, mark(0).max(mark(1)).max(mark(2)).code(mode))
    }

    /// For each axis the codes along it, as voxels bear them that the other two axes leave at 0.
    pub fn codes_along(&self, order: usize, mode: BorderMode<f64>) -> [Vec<u8>; 3] {
        let codes = |marks: Vec<Mark>| marks.iter().map(|mark| mark.code(mode)).collect();
        self.marks(order, mode).map(codes)
    }

    fn marks(&self, order: usize, mode: BorderMode<f64>) -> [Vec<Mark>; 3] {
        let points = self.points(order, mode);
        [0, 1, 2].map(|axis| {
            let mark = |point| Mark::of(point, self.idim[axis], self.nb_prepad);
            points[axis].iter().map(mark).collect()
        })
    }

    fn tables(&self, order: usize, mode: BorderMode<f64>) -> ZoomShiftReslicer {
        let &Axes {
            idim,
            odim,
            zooms,
            shifts,
            nb_prepad,
        } = self;
        ZoomShiftReslicer::new(idim, odim, zooms, shifts, order, mode, nb_prepad)
    }
}

fn nb_prepad(order: usize, mode: BorderMode<f64>, prefilter: bool) -> isize {
    if prefilter && order > 1 && mode == BorderMode::Nearest {
        12
    } else {
        0
    }
}

/// What becomes of one output index on one axis.
#[derive(Clone, Debug, PartialEq)]
pub enum Point {
    /// Its coordinate is at or below -1.
    Dropped,
    Kept {
        /// The first neighbour before any fold.
        first: isize,
        /// Whether some neighbour lay outside, so that all were folded.
        edge: bool,
        /// The neighbours that the sum reads.
        neighbours: Vec<isize>,
        /// Their weights; at order 0 there are none.
        weights: Vec<f64>,
    },
}

impl Point {
    fn of(tables: &ZoomShiftReslicer, axis: usize, at: usize) -> Point {
        if tables.zeros[axis][at] {
            return Point::Dropped;
        }
        let first = tables.offsets[axis][at];
        let edge = tables.is_edge_case[axis][at];
        let neighbour = |n| {
            let step = if edge {
                tables.edge_offsets[axis][(at, n)]
            } else {
                n as isize
            };
            first + step
        };
        let weights = if tables.order > 0 {
            (0..=tables.order)
                .map(|n| tables.splvals[axis][(at, n)])
                .collect()
        } else {
            Vec::new()
        };
        Point::Kept {
            first,
            edge,
            neighbours: (0..=tables.order).map(neighbour).collect(),
            weights,
        }
    }
}

/// What an axis has to remark on a voxel, the graver the later.
#[derive(Clone, Copy, PartialEq, Eq, PartialOrd, Ord)]
enum Mark {
    Plain,
    /// A neighbour with a nonzero weight lay outside the unpadded axis before its own fold.
    Folded,
    Dropped,
}

impl Mark {
    /// Of a point on an axis of this length, the pad left out. At order 0 there is no weight.
    fn of(point: &Point, length: usize, pad: isize) -> Mark {
        let Point::Kept { first, weights, .. } = point else {
            return Mark::Dropped;
        };
        let outside = |neighbour: isize| !(0..length as isize).contains(&(neighbour - pad));
        let mut weighted = (*first..).zip(weights);
        if weighted.any(|(neighbour, weight)| *weight != 0.0 && outside(neighbour)) {
            Mark::Folded
        } else {
            Mark::Plain
        }
    }

    /// Documents 01 and 02 (#103): 0 computed, 1 dropped in Constant, 2 dropped in another mode,
    /// 3 kept with a folded neighbour.
    fn code(self, mode: BorderMode<f64>) -> u8 {
        match (self, mode) {
            (Mark::Plain, _) => 0,
            (Mark::Folded, _) => 3,
            (Mark::Dropped, BorderMode::Constant(_)) => 1,
            (Mark::Dropped, _) => 2,
        }
    }
}

#[cfg(test)]
mod tests {
    use super::*;

    const DIM: [usize; 3] = [3, 4, 7];
    const MODES: [BorderMode<f64>; 5] = [
        BorderMode::Constant(-3.5),
        BorderMode::Mirror,
        BorderMode::Nearest,
        BorderMode::Reflect,
        BorderMode::Wrap,
    ];
    const SHIFTS: [[f64; 3]; 4] = [
        [0.0, 0.0, 0.0],
        [1.0, -2.0, 20.0],
        [0.25, -0.75, 2.5],
        [-28.0, 13.0, -0.125],
    ];
    const ZOOMS: [[f64; 3]; 3] = [[1.0, 1.0, 1.0], [1.5, 0.5, 1.75], [3.0, 2.25, 0.4]];

    /// One way of asking, over every mode, order and flag.
    type Request = (usize, BorderMode<f64>, bool);

    fn requests() -> Vec<Request> {
        let mut requests = Vec::new();
        for order in 0..=5 {
            for mode in MODES {
                requests.extend([(order, mode, false), (order, mode, true)]);
            }
        }
        requests
    }

    fn volume(voxel: impl Fn(usize) -> f64) -> Array3<f64> {
        let count = DIM.iter().product();
        Array3::from_shape_vec(DIM, (0..count).map(voxel).collect()).unwrap()
    }

    fn kept_as_0(code: u8) -> u8 {
        if code == 3 {
            0
        } else {
            code
        }
    }

    fn bits(values: &ArrayRef3<f64>) -> Vec<u64> {
        let values = values.as_slice().unwrap();
        values.iter().map(|v| v.to_bits()).collect()
    }

    /// What the tables and the coefficients give where the whole call gives its output.
    fn from_pieces(data: &ArrayRef3<f64>, axes: &Axes, request: Request) -> Array3<f64> {
        let (order, mode, prefilter) = request;
        let coefficients = coefficients(data, order, mode, prefilter);
        let tables = axes.tables(order, mode);
        let mut out = Array3::zeros(axes.odim);
        Zip::indexed(&mut out).for_each(|at, o| *o = tables.interpolate(&coefficients, at));
        out
    }

    /// The codes of dropped voxels, and 0 for all others, without a look at the tables: ones go in, so
    /// that a kept voxel comes out near one, and a dropped one as NaN (the fill) or as 0.
    fn dropped_by_effect(
        call: impl Fn(&ArrayRef3<f64>, BorderMode<f64>) -> Array3<f64>,
        mode: BorderMode<f64>,
    ) -> Vec<u8> {
        let ones = volume(|_| 1.0);
        let (asked, dropped_code) = match mode {
            BorderMode::Constant(_) => (BorderMode::Constant(f64::NAN), 1),
            _ => (mode, 2),
        };
        let out = call(&ones, asked);
        let code = |v: &f64| if *v > 0.5 { 0 } else { dropped_code };
        out.as_slice().unwrap().iter().map(code).collect()
    }

    fn check(
        axes: &Axes,
        request: Request,
        call: impl Fn(&ArrayRef3<f64>, Request) -> Array3<f64>,
    ) {
        let (order, mode, prefilter) = request;
        let data = volume(|i| (i * i % 97) as f64 / 3.0 - 16.0);
        let whole = call(&data, request);
        assert_eq!(whole.shape(), axes.odim);
        assert_eq!(bits(&whole), bits(&from_pieces(&data, axes, request)));
        let codes = axes.codes(order, mode);
        assert!(order > 0 || !codes.contains(&3));
        let dropped: Vec<u8> = codes.into_iter().map(kept_as_0).collect();
        let by_effect = dropped_by_effect(|ones, m| call(ones, (order, m, prefilter)), mode);
        assert_eq!(dropped, by_effect);
    }

    /// At order 0 the Rust panics on some of the requests.
    fn panics(call: impl Fn()) -> bool {
        std::panic::catch_unwind(std::panic::AssertUnwindSafe(call)).is_err()
    }

    #[test]
    fn shift_is_the_sum_of_its_pieces() {
        for request in requests() {
            for factors in SHIFTS {
                let (order, mode, prefilter) = request;
                let axes = Axes::of_shift(DIM, factors, order, mode, prefilter);
                let call = |data: &ArrayRef3<f64>, (order, mode, prefilter): Request| {
                    shift(data, factors, order, mode, prefilter)
                };
                if order == 0 && panics(|| drop(axes.points(order, mode))) {
                    assert!(panics(|| drop(call(&volume(|_| 1.0), request))));
                } else {
                    check(&axes, request, call);
                }
            }
        }
    }

    #[test]
    fn zoom_is_the_sum_of_its_pieces() {
        for request in requests() {
            for factors in ZOOMS {
                let (order, mode, prefilter) = request;
                let axes = Axes::of_zoom(DIM, factors, order, mode, prefilter);
                let call = |data: &ArrayRef3<f64>, (order, mode, prefilter): Request| {
                    zoom(data, factors, order, mode, prefilter)
                };
                check(&axes, request, call);
            }
        }
    }

    /// Code 3 without a look at the tables: the scan is all 0 and stands in a margin of ones, so that a
    /// voxel is 0 exactly where each neighbour that has a weight lies in the scan. The other modes fold
    /// the coordinate too, and would come out elsewhere.
    #[test]
    fn folded_by_effect() {
        const MARGIN: usize = 8;
        let [_, d1, d2] = DIM;
        let in_margin = |place: usize| {
            let [x, y, z] = [place / (d1 * d2), place / d2 % d1, place % d2];
            (MARGIN + x, MARGIN + y, MARGIN + z)
        };
        let mut scan = Array3::from_elem(DIM.map(|length| length + 2 * MARGIN), 1.0);
        (0..DIM.iter().product()).for_each(|place| scan[in_margin(place)] = 0.0);
        let mut seen = [0; 4];
        for (order, mode, prefilter) in requests() {
            if order == 0 || !matches!(mode, BorderMode::Constant(_) | BorderMode::Nearest) {
                continue;
            }
            for factors in [[0.0; 3], [0.25, -0.5, 2.5], [-2.0, 0.125, -0.75]] {
                let blended = shift(&scan, factors, order, BorderMode::Mirror, false);
                let axes = Axes::of_shift(DIM, factors, order, mode, prefilter);
                for (place, code) in axes.codes(order, mode).into_iter().enumerate() {
                    seen[code as usize] += 1;
                    if kept_as_0(code) == 0 {
                        assert_eq!(code == 3, blended[in_margin(place)] != 0.0);
                    }
                }
            }
        }
        assert!(!seen.contains(&0), "{seen:?}");
    }

    /// Document 02's lines: 2 by 2 by 4 voxels, order 1, a shift on the last axis.
    #[test]
    fn codes_of_document_02() {
        for (mode, by, lane) in [
            (BorderMode::Constant(-1.0), -0.5, [0, 0, 0, 3]),
            (BorderMode::Nearest, -2.0, [0, 0, 3, 3]),
            (BorderMode::Nearest, 0.25, [3, 0, 0, 0]),
            (BorderMode::Reflect, 0.5, [3, 0, 0, 0]),
            (BorderMode::Mirror, 0.5, [0, 0, 0, 0]),
        ] {
            let axes = Axes::of_shift([2, 2, 4], [0.0, 0.0, by], 1, mode, true);
            assert_eq!(axes.codes(1, mode), lane.repeat(4), "{mode:?}, {by}");
        }
    }

    /// Order 1 gives its second neighbour a weight of 0 at whole coordinates; order 3 gives its last
    /// 2^-53, which is not 0.
    #[test]
    fn codes_along_an_axis_that_is_not_moved() {
        for (order, mode, prefilter) in requests() {
            let axes = Axes::of_shift([7; 3], [0.0; 3], order, mode, prefilter);
            let along = match order {
                0 | 1 => [0; 7],
                2 => [3, 0, 0, 0, 0, 0, 3],
                3 => [3, 0, 0, 0, 0, 3, 3],
                _ => [3, 3, 0, 0, 0, 3, 3],
            };
            for codes in axes.codes_along(order, mode) {
                assert_eq!(
                    codes, along,
                    "order {order}, {mode:?}, prefilter {prefilter}"
                );
            }
        }
    }

    /// The last coordinate of 8 voxels zoomed to 26 is rounded above 7.
    #[test]
    fn zoom_may_fold_the_last_neighbour() {
        for mode in MODES {
            let axes = Axes::of_zoom([8; 3], [3.25; 3], 1, mode, true);
            let [along, ..] = axes.codes_along(1, mode);
            assert_eq!(along[..25], [0; 25]);
            assert_eq!(along[25], 3);
        }
    }
}
