//! Single slices (document 02, #106): which shifts and factors an axis of length 1 takes, where its refusal
//! stands in the order, that the axis is copied, and what the other axes then give.

use vurelika::BorderMode::{Mirror, Nearest, Reflect, Replicate, Wrap};
use vurelika::{
    shift, shift_point, spline_filter, spline_filter1d, zoom, zoom_point, BorderMode, Refusal,
    Request, COMPUTED, FILLED, FOLDED,
};

const LANE: [f64; 4] = [10.0, 20.0, 30.0, 40.0];
const CONSTANT: BorderMode = BorderMode::Constant(-1.0);
const MODES: [BorderMode; 6] = [CONSTANT, Mirror, Nearest, Reflect, Wrap, Replicate];

/// The smallest number above 0.
const LEAST: f64 = f64::from_bits(1);

fn request(dims: [usize; 3], factors: [f64; 3], order: usize, mode: BorderMode) -> Request {
    Request {
        dims,
        factors,
        order,
        prefilter: false,
        mode,
    }
}

/// The number that stands after x, and before it.
fn after(x: f64) -> f64 {
    f64::from_bits(x.to_bits() + 1)
}

fn before(x: f64) -> f64 {
    f64::from_bits(x.to_bits() - 1)
}

/// Three numbers, all the same but one.
fn but<T: Copy>(same: T, axis: usize, other: T) -> [T; 3] {
    let mut three = [same; 3];
    three[axis] = other;
    three
}

/// Voxels of which no two are alike.
fn voxels(dims: [usize; 3]) -> Vec<f64> {
    (0..dims.iter().product())
        .map(|i| (i * i) as f64 - 7.25)
        .collect()
}

fn bits(numbers: &[f64]) -> Vec<u64> {
    numbers.iter().map(|number| number.to_bits()).collect()
}

/// Each mode and order, with prefilter and without.
fn requests(dims: [usize; 3], factors: [f64; 3]) -> impl Iterator<Item = Request> {
    MODES.into_iter().flat_map(move |mode| {
        (0..=5).flat_map(move |order| {
            [false, true].map(|prefilter| Request {
                prefilter,
                ..request(dims, factors, order, mode)
            })
        })
    })
}

/// A lane along each axis, the other two of length 1.
#[test]
fn a_lane() -> Result<(), Refusal> {
    for (by, order, mode, values, codes) in [
        (-0.5, 1, CONSTANT, [15.0, 25.0, 35.0, 35.0], [0, 0, 0, 3]),
        (1.0, 1, CONSTANT, [-1.0, 10.0, 20.0, 30.0], [1, 0, 0, 0]),
        (0.0, 2, Mirror, [12.5, 20.0, 30.0, 37.5], [3, 0, 0, 3]),
        (0.0, 2, Reflect, [11.25, 20.0, 30.0, 38.75], [3, 0, 0, 3]),
        (2.0, 1, Nearest, [0.0, 0.0, 10.0, 20.0], [2, 2, 0, 0]),
        (2.0, 1, Replicate, [10.0, 10.0, 10.0, 20.0], [0, 0, 0, 0]),
    ] {
        for axis in 0..3 {
            let r = request(but(1, axis, 4), but(0.0, axis, by), order, mode);
            let moved = shift(&r, &LANE)?;
            assert_eq!(
                (moved.voxels, moved.coverage),
                (values.to_vec(), codes.to_vec())
            );
        }
    }
    for axis in 0..3 {
        let r = request(but(1, axis, 4), but(1.25, axis, 1.75), 1, Mirror);
        let finer = zoom(&r, &LANE)?;
        assert_eq!(finer.dims, but(1, axis, 7));
        assert_eq!(finer.voxels, [10.0, 15.0, 20.0, 25.0, 30.0, 35.0, 40.0]);
    }
    Ok(())
}

/// Both zeros and nothing else, on each axis.
#[test]
fn shifts() {
    for axis in 0..3 {
        let by = |amount| {
            let r = request(but(3, axis, 1), but(1.0, axis, amount), 1, CONSTANT);
            shift(&r, &voxels(r.dims))
        };
        assert!(by(0.0).is_ok());
        assert_eq!(by(-0.0), by(0.0));
        for other in [LEAST, -LEAST, 1.0, -1.0, 1048575.5] {
            assert_eq!(by(other), Err(Refusal::Slice));
        }
        for wild in [f64::NAN, f64::INFINITY, 1048576.0] {
            assert_eq!(by(wild), Err(Refusal::Factor));
        }
    }
}

/// Between 0.5 and 1.5, on each axis.
#[test]
fn factors() {
    for axis in 0..3 {
        let by = |factor| {
            let r = request(but(3, axis, 1), but(2.0, axis, factor), 1, CONSTANT);
            zoom(&r, &voxels(r.dims))
        };
        for taken in [after(0.5), 1.0, 1.25, before(1.5)] {
            assert_eq!(by(taken), by(1.0));
            assert_eq!(by(taken).map(|finer| finer.dims), Ok(but(6, axis, 1)));
        }
        for other in [LEAST, 0.25, 0.5, 1.5, 2.0, 4096.0] {
            assert_eq!(by(other), Err(Refusal::Slice));
        }
        for wild in [f64::NAN, 0.0, -0.0, -1.0, after(4096.0)] {
            assert_eq!(by(wild), Err(Refusal::Factor));
        }
    }
}

/// After 4 and before 5, whatever the axes; no other axis is zoomed down to 1.
#[test]
fn in_its_place() {
    let zoomed = |dims, factors, order| zoom(&request(dims, factors, order, CONSTANT), &[]);
    for (dims, factors, refusal) in [
        ([1, 2, 4], [0.5, 1.0, 1.0], Refusal::Slice),
        ([1, 2, 4], [1.0, 0.5, 1.0], Refusal::OutputLength),
        ([1, 2, 4], [0.5, 0.5, 1.0], Refusal::Slice),
        ([2, 4, 1], [0.5, 2048.0, 1.5], Refusal::Slice),
        ([1, 2, 4], [0.5, 1.0, 0.0], Refusal::Factor),
        ([0, 1, 4], [f64::NAN, 2.0, 1.0], Refusal::Length),
        ([1, 4096, 4096], [2.0, 1.0, 1.0], Refusal::Slice),
        ([1, 4096, 4096], [1.0, 1.0, 1.0], Refusal::Buffer),
    ] {
        assert_eq!(zoomed(dims, factors, 1), Err(refusal));
        assert_eq!(zoomed(dims, factors, 6), Err(Refusal::Order));
    }
    let shifted = |factors| shift(&request([1, 2, 4], factors, 0, CONSTANT), &[0.0; 8]);
    assert_eq!(shifted([1.0, 0.0, -0.5]), Err(Refusal::Slice));
    assert_eq!(shifted([0.0, 0.0, -0.5]), Err(Refusal::Beside));
    assert_eq!(shifted([1.0, 0.0, f64::NAN]), Err(Refusal::Factor));
}

/// The filters read no factor.
#[test]
fn filters() -> Result<(), Refusal> {
    let odd = [0.0, -0.0, LEAST, -LEAST, 90f64.exp2(), 0.1, -3.5, 1e-310];
    for dims in [[1, 2, 4], [4, 1, 2], [2, 4, 1], [1, 8, 1]] {
        for mut r in requests(dims, [f64::NAN; 3]) {
            for axis in (0..3).filter(|&axis| dims[axis] == 1) {
                assert_eq!(bits(&spline_filter1d(&r, axis, &odd)?), bits(&odd));
            }
            r.order = r.order.max(2);
            let all = (0..3)
                .filter(|&axis| dims[axis] > 1)
                .try_fold(odd.to_vec(), |voxels, axis| {
                    spline_filter1d(&r, axis, &voxels)
                })?;
            assert_eq!(bits(&spline_filter(&r, &odd)?), bits(&all));
        }
    }
    for voxel in odd {
        for mut r in requests([1; 3], [f64::NAN; 3]) {
            r.order = r.order.max(2);
            assert_eq!(bits(&spline_filter(&r, &[voxel])?), bits(&[voxel]));
        }
    }
    Ok(())
}

#[test]
fn work() -> Result<(), Refusal> {
    for (dims, mode, needed) in [
        ([1, 2, 4], Nearest, 26 * 28),
        ([1, 2, 4], Replicate, 26 * 28),
        ([1, 2, 4], Mirror, 8),
        ([3, 1, 1], Nearest, 27),
        ([1; 3], Replicate, 1),
    ] {
        let r = Request {
            prefilter: true,
            ..request(dims, [0.0; 3], 2, mode)
        };
        assert_eq!(r.shift_sizes()?.work, needed);
        assert_eq!(Request { order: 1, ..r }.shift_sizes()?.work, 0);
    }
    Ok(())
}

/// One neighbour, of weight 1, in every mode, at every order, with prefilter and without.
#[test]
fn the_record() -> Result<(), Refusal> {
    for r in requests([1; 3], [0.0; 3]) {
        for point in [
            shift_point(1, 0.0, r.order, r.prefilter, r.mode, 0)?,
            shift_point(1, -0.0, r.order, r.prefilter, r.mode, 0)?,
            zoom_point(1, after(0.5), r.order, r.prefilter, r.mode, 0)?,
            zoom_point(1, before(1.5), r.order, r.prefilter, r.mode, 0)?,
        ] {
            assert_eq!((point.coordinate, point.neighbours), (0.0, [0; 6]));
            assert_eq!(point.weights, [1.0, 0.0, 0.0, 0.0, 0.0, 0.0]);
            assert!(point.is_kept());
        }
    }
    Ok(())
}

/// A single voxel comes out as it went in, computed: no mode drops it, none folds a neighbour.
#[test]
fn a_voxel() -> Result<(), Refusal> {
    for voxel in [10.0, -2.5, LEAST, -100f64.exp2()] {
        for r in requests([1; 3], [0.0; 3]) {
            let still = shift(&r, &[voxel])?;
            assert_eq!(
                (still.voxels, still.coverage),
                (vec![voxel], vec![COMPUTED])
            );
            let factors = [0.75, 1.0, 1.25];
            let same = zoom(&Request { factors, ..r }, &[voxel])?;
            assert_eq!((same.dims, same.voxels), ([1; 3], vec![voxel]));
            assert_eq!(same.coverage, [COMPUTED]);
        }
    }
    Ok(())
}

/// At orders 0 and 1 a slice is as it is in a volume of two such slices.
#[test]
fn doubled() {
    let slice = voxels([1, 3, 4]);
    let twice = [&slice[..], &slice].concat();
    for r in requests([1, 3, 4], [0.0, -0.75, 2.5]).filter(|r| r.order < 2) {
        let two = Request {
            dims: [2, 3, 4],
            ..r
        };
        match (shift(&r, &slice), shift(&two, &twice)) {
            (Ok(one), Ok(two)) => {
                assert_eq!(bits(&one.voxels), bits(&two.voxels[..12]), "{r:?}");
                assert_eq!(one.coverage, two.coverage[..12], "{r:?}");
            }
            (one, two) => assert_eq!(one.err(), two.err(), "{r:?}"),
        }
        let factors = [1.0, 1.75, 0.75];
        let one = zoom(&Request { factors, ..r }, &slice).expect("a zoom of the slice");
        let two = zoom(&Request { factors, ..two }, &twice).expect("a zoom of the two");
        let half = two.voxels.len() / 2;
        assert_eq!(bits(&one.voxels), bits(&two.voxels[..half]), "{r:?}");
        assert_eq!(one.coverage, two.coverage[..half], "{r:?}");
    }
}

/// Whole shifts of a radiograph move it exactly, and the opposite ones bring it back.
#[test]
fn there_and_back() -> Result<(), Refusal> {
    let dims = [1, 64, 48];
    let scan = voxels(dims);
    for order in [0, 1] {
        let by = |factors| request(dims, factors, order, CONSTANT);
        let there = shift(&by([0.0, 5.0, -3.0]), &scan)?;
        let back = shift(&by([-0.0, -5.0, 3.0]), &there.voxels)?;
        for (place, &voxel) in scan.iter().enumerate() {
            let (y, z) = (place / 48, place % 48);
            let (value, code) = match (y.checked_sub(5), z + 3) {
                (Some(y), z @ ..48) => (scan[y * 48 + z], COMPUTED),
                _ => (-1.0, FILLED),
            };
            assert_eq!((there.voxels[place], there.coverage[place]), (value, code));
            if y < 59 && z >= 3 {
                assert_eq!(back.voxels[place], voxel);
            }
        }
        assert_eq!(there.counts.computed, 59 * 45);
    }
    Ok(())
}

/// Above order 1 the edges of a radiograph bear code 3, and its inside does not: the axis of length 1 adds none.
#[test]
fn codes() -> Result<(), Refusal> {
    let r = request([7, 1, 7], [0.0; 3], 2, Mirror);
    let still = shift(&r, &voxels(r.dims))?;
    for (place, &code) in still.coverage.iter().enumerate() {
        let edge = [place / 7, place % 7].iter().any(|i| [0, 6].contains(i));
        assert_eq!(code, if edge { FOLDED } else { COMPUTED });
    }
    assert_eq!((still.counts.folded, still.counts.computed), (24, 25));
    Ok(())
}
