//! One voxel (document 02, #105): equal to the volume's in bits and code, its sum put together from what the
//! axes give, and its refusals in their order.

use vurelika::{
    shift_into, shift_point, shift_voxel, zoom_into, zoom_point, zoom_voxel, BorderMode, Counts,
    Point, Refusal, Request, Sizes, Voxel,
};

const MODES: [BorderMode; 6] = [
    BorderMode::Constant(-1.0),
    BorderMode::Mirror,
    BorderMode::Nearest,
    BorderMode::Reflect,
    BorderMode::Wrap,
    BorderMode::Replicate,
];

type Volume = fn(&Request, &[f64], &mut [f64], &mut [u8], &mut [f64]) -> Result<Counts, Refusal>;
type OneVoxel = fn(&Request, &[f64], &[f64], [usize; 3]) -> Result<Voxel, Refusal>;
type OnePoint = fn(usize, f64, usize, bool, BorderMode, usize) -> Result<Point, Refusal>;

/// Shift or zoom, with factors that drop, fold and keep voxels, or make more of them, and one that an axis of
/// length 1 takes.
struct Entry {
    volume: Volume,
    voxel: OneVoxel,
    point: OnePoint,
    sizes: fn(&Request) -> Result<Sizes, Refusal>,
    factors: [f64; 3],
    single: f64,
}

/// What the volume's call leaves.
struct Left {
    dims: [usize; 3],
    output: Vec<f64>,
    coverage: Vec<u8>,
    work: Vec<f64>,
}

impl Entry {
    fn resampled(&self, r: &Request, input: &[f64]) -> Result<Left, Refusal> {
        let sizes = (self.sizes)(r)?;
        let mut left = Left {
            dims: sizes.dims,
            output: vec![0.0; sizes.output],
            coverage: vec![0; sizes.output],
            work: vec![0.0; sizes.work],
        };
        let Left {
            output,
            coverage,
            work,
            ..
        } = &mut left;
        (self.volume)(r, input, output, coverage, work)?;
        Ok(left)
    }

    fn point_of(&self, r: &Request, axis: usize, index: usize) -> Point {
        let (length, factor) = (r.dims[axis], r.factors[axis]);
        (self.point)(length, factor, r.order, r.prefilter, r.mode, index).expect("an axis of it")
    }
}

const SHIFT: Entry = Entry {
    volume: shift_into,
    voxel: shift_voxel,
    point: shift_point,
    sizes: Request::shift_sizes,
    factors: [-0.75, 1.0, 2.5],
    single: -0.0,
};
const ZOOM: Entry = Entry {
    volume: zoom_into,
    voxel: zoom_voxel,
    point: zoom_point,
    sizes: Request::zoom_sizes,
    factors: [1.5, 1.0, 1.75],
    single: 1.25,
};

const DIMS: [usize; 3] = [2, 3, 4];
const VOXELS: usize = 24;

/// A volume, radiographs, lanes and a single voxel.
const SHAPES: [[usize; 3]; 6] = [DIMS, [1, 3, 4], [2, 1, 4], [2, 3, 1], [1, 1, 4], [1; 3]];

/// Numbers for the largest of them.
fn input() -> Vec<f64> {
    (0..VOXELS).map(|i| (i * i) as f64 - 100.25).collect()
}

/// Each mode, order and flag.
fn requests(dims: [usize; 3], factors: [f64; 3]) -> impl Iterator<Item = Request> {
    MODES.into_iter().flat_map(move |mode| {
        (0..=5).flat_map(move |order| {
            [false, true].map(|prefilter| Request {
                dims,
                factors,
                order,
                prefilter,
                mode,
            })
        })
    })
}

/// The three numbers of each place of a volume, and its place in the buffer.
fn places([a, b, c]: [usize; 3]) -> impl Iterator<Item = (usize, [usize; 3])> {
    (0..a * b * c).map(move |place| (place, [place / c / b, place / c % b, place % c]))
}

/// What the header says of the value: the fill or 0.0, one voxel, or the sum.
fn by_hand(r: &Request, data: &[f64], [x, y, z]: [Point; 3]) -> f64 {
    let fill = match r.mode {
        BorderMode::Constant(fill) => fill,
        _ => 0.0,
    };
    let padded = data.len() > r.dims.iter().product();
    let [_, b, c] = r.dims.map(|length| match length {
        2.. if padded => length + 24,
        _ => length,
    });
    let read = |i: usize, j: usize, k: usize| {
        data[(x.neighbours[i] * b + y.neighbours[j]) * c + z.neighbours[k]]
    };
    if !(x.is_kept() && y.is_kept() && z.is_kept()) {
        return fill;
    }
    if r.order == 0 {
        return read(0, 0, 0);
    }
    let mut sum = 0.0;
    for k in 0..=r.order {
        for j in 0..=r.order {
            for i in 0..=r.order {
                sum += read(i, j, k) * (x.weights[i] * (y.weights[j] * z.weights[k]));
            }
        }
    }
    sum
}

/// Of each request that succeeds every voxel; of one that is refused, at order 0, the same refusal.
#[test]
fn every_voxel() {
    let input = input();
    for (entry, dims) in [SHIFT, ZOOM]
        .iter()
        .flat_map(|entry| SHAPES.map(|dims| (entry, dims)))
    {
        let input = &input[..dims.iter().product()];
        let factors = [0, 1, 2].map(|axis| match dims[axis] {
            1 => entry.single,
            _ => entry.factors[axis],
        });
        for r in requests(dims, factors) {
            let left = match entry.resampled(&r, input) {
                Ok(left) => left,
                Err(refusal) => {
                    assert_eq!((entry.voxel)(&r, input, &[], [0; 3]), Err(refusal));
                    continue;
                }
            };
            let data = if left.work.is_empty() {
                input
            } else {
                &left.work
            };
            for (place, at) in places(left.dims) {
                let one = (entry.voxel)(&r, input, &left.work, at).expect("one of the volume");
                assert_eq!(one.value.to_bits(), left.output[place].to_bits(), "{r:?}");
                assert_eq!(one.code, left.coverage[place], "{r:?}");
                let points = [0, 1, 2].map(|axis| entry.point_of(&r, axis, at[axis]));
                assert_eq!(by_hand(&r, data, points).to_bits(), one.value.to_bits());
            }
        }
    }
}

/// The coefficients are those of any call on the same input, lengths, order and mode.
#[test]
fn any_coefficients() -> Result<(), Refusal> {
    let input = input();
    for r in requests(DIMS, ZOOM.factors).filter(|r| r.prefilter && r.order > 1) {
        let still = Request {
            factors: [0.0; 3],
            ..r
        };
        let left = SHIFT.resampled(&still, &input)?;
        assert_eq!(left.work, ZOOM.resampled(&r, &input)?.work);
    }
    Ok(())
}

/// Work is read, not the input: over zeros the sum is 0, whatever the voxels are; and work may be longer
/// than it need be.
#[test]
fn other_numbers_in_work() -> Result<(), Refusal> {
    let r = Request {
        dims: DIMS,
        factors: [0.0; 3],
        order: 3,
        prefilter: true,
        mode: BorderMode::Mirror,
    };
    let zeros = [[0.0; VOXELS].to_vec(), vec![f64::NAN; 5]].concat();
    for (_, at) in places(DIMS) {
        assert_eq!(shift_voxel(&r, &input(), &zeros, at)?.value, 0.0);
    }
    let short = shift_voxel(&r, &input(), &zeros[1..VOXELS], [0; 3]);
    assert_eq!(short, Err(Refusal::Buffer));
    Ok(())
}

/// Index is last: both sides of its limit on each axis, and whatever else is wrong comes before it.
#[test]
fn refusals() {
    let r = Request {
        dims: DIMS,
        factors: [1.0; 3],
        order: 0,
        prefilter: true,
        mode: BorderMode::Constant(0.5),
    };
    let input = input();
    let far = [usize::MAX; 3];
    for entry in [SHIFT, ZOOM] {
        let asked = |r: &Request, input: &[f64], at| (entry.voxel)(r, input, &[], at);
        for axis in 0..3 {
            let mut at = DIMS.map(|length| length - 1);
            assert!(asked(&r, &input, at).is_ok());
            at[axis] = DIMS[axis];
            assert_eq!(asked(&r, &input, at), Err(Refusal::Index));
        }
        assert_eq!(asked(&r, &input, far), Err(Refusal::Index));
        let six = Request { order: 6, ..r };
        assert_eq!(asked(&six, &input, far), Err(Refusal::Order));
        let empty = Request {
            dims: [2, 0, 4],
            ..r
        };
        assert_eq!(asked(&empty, &input, far), Err(Refusal::Length));
        let infinite = Request {
            factors: [1.0, f64::INFINITY, 1.0],
            ..r
        };
        assert_eq!(asked(&infinite, &input, far), Err(Refusal::Factor));
        let thin = Request {
            dims: [2, 1, 4],
            factors: [1.0, 1.5, 1.0],
            ..r
        };
        assert_eq!(asked(&thin, &input, far), Err(Refusal::Slice));
        assert_eq!(asked(&r, &input[1..], far), Err(Refusal::Buffer));
        assert_eq!(asked(&r, &[f64::NAN; VOXELS], far), Err(Refusal::Value));
    }
    let half = Request {
        factors: [0.0, 0.0, -0.5],
        ..r
    };
    for at in [[0; 3], far] {
        assert_eq!(shift_voxel(&half, &input, &[], at), Err(Refusal::Beside));
    }
    let small = Request {
        factors: [1.0, 1.0, 0.25],
        ..r
    };
    let short = zoom_voxel(&small, &input, &[], far);
    assert_eq!(short, Err(Refusal::OutputLength));
}

#[test]
fn refusals_of_an_axis() {
    let mode = BorderMode::Constant(0.5);
    let far = usize::MAX;
    for point in [shift_point, zoom_point] {
        assert!(point(4, 1.0, 5, true, mode, 3).is_ok());
        assert_eq!(point(4, 1.0, 5, true, mode, 4), Err(Refusal::Index));
        assert_eq!(point(1, f64::NAN, 6, true, mode, far), Err(Refusal::Order));
        for length in [0, 4097] {
            let answer = point(length, f64::NAN, 5, true, mode, far);
            assert_eq!(answer, Err(Refusal::Length));
        }
        for length in [1, 4] {
            let answer = point(length, f64::NAN, 0, true, mode, far);
            assert_eq!(answer, Err(Refusal::Factor));
        }
        assert_eq!(point(1, 1.5, 0, true, mode, far), Err(Refusal::Slice));
    }
    for far in [1, far] {
        let single = shift_point(1, 0.0, 0, true, mode, far);
        assert_eq!(single, Err(Refusal::Index));
    }
    let short = zoom_point(4, 0.25, 0, true, mode, far);
    assert_eq!(short, Err(Refusal::OutputLength));
    for mode in MODES {
        let beside = match mode {
            BorderMode::Replicate => Err(Refusal::Index),
            _ => Err(Refusal::Beside),
        };
        assert_eq!(shift_point(4, -0.5, 0, false, mode, 4), beside);
    }
}
