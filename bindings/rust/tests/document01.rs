//! Document 01's numbers to hold to, their codes as document 02's #103 has them, and the lines of #103 and
//! of #104's mode.

use vurelika::{
    shift, spline_filter, spline_filter1d, zoom, BorderMode, Counts, Refusal, Request, Resampled,
    COMPUTED, DEFAULTED, FILLED, FOLDED,
};

const LANE: [f64; 4] = [10.0, 20.0, 30.0, 40.0];
const CONSTANT: BorderMode = BorderMode::Constant(-1.0);

/// A request on the document's volume, 2 by 2 by 4.
fn request(factors: [f64; 3], order: usize, mode: BorderMode) -> Request {
    Request {
        dims: [2, 2, 4],
        factors,
        order,
        prefilter: true,
        mode,
    }
}

fn shift_last(by: f64, order: usize, mode: BorderMode) -> Result<Resampled, Refusal> {
    shift(&request([0.0, 0.0, by], order, mode), &LANE.repeat(4))
}

/// Every lane is this one with these codes, and the counts say so.
fn assert_lanes(resampled: &Resampled, lane: &[f64], codes: &[u8]) {
    assert_eq!(resampled.dims, [2, 2, lane.len()]);
    assert_eq!(resampled.voxels, lane.repeat(4));
    assert_eq!(resampled.coverage, codes.repeat(4));
    assert_counted(resampled);
}

fn assert_counted(resampled: &Resampled) {
    let bearing = |code| resampled.coverage.iter().filter(|&&c| c == code).count() as u64;
    let counts = Counts {
        computed: bearing(COMPUTED),
        filled: bearing(FILLED),
        defaulted: bearing(DEFAULTED),
        folded: bearing(FOLDED),
    };
    assert_eq!(resampled.counts, counts);
}

#[test]
fn constant() -> Result<(), Refusal> {
    let that = shift_last(1.0, 1, CONSTANT)?;
    assert_lanes(&that, &[-1.0, 10.0, 20.0, 30.0], &[1, 0, 0, 0]);
    let back = shift(&request([0.0, 0.0, -1.0], 1, CONSTANT), &that.voxels)?;
    assert_lanes(&back, &[10.0, 20.0, 30.0, -1.0], &[0, 0, 0, 1]);

    let half = shift_last(-0.5, 1, CONSTANT)?;
    assert_lanes(&half, &[15.0, 25.0, 35.0, 35.0], &[0, 0, 0, 3]);
    let nearest_voxel = shift_last(0.5, 0, CONSTANT)?;
    assert_lanes(&nearest_voxel, &[-1.0, 20.0, 30.0, 40.0], &[1, 0, 0, 0]);
    assert_eq!(shift_last(-0.5, 0, CONSTANT), Err(Refusal::Beside));
    Ok(())
}

#[test]
fn other_modes() -> Result<(), Refusal> {
    let right = shift_last(2.0, 1, BorderMode::Nearest)?;
    assert_lanes(&right, &[0.0, 0.0, 10.0, 20.0], &[2, 2, 0, 0]);
    let left = shift_last(-2.0, 1, BorderMode::Nearest)?;
    assert_lanes(&left, &[30.0, 40.0, 40.0, 40.0], &[0, 0, 3, 3]);
    // Mirror folds -1 to 1, and Wrap, as the document's table has it, to 2.
    let mirrored = shift_last(1.0, 1, BorderMode::Mirror)?;
    assert_lanes(&mirrored, &[20.0, 10.0, 20.0, 30.0], &[0, 0, 0, 0]);
    let wrapped = shift_last(1.0, 1, BorderMode::Wrap)?;
    assert_lanes(&wrapped, &[30.0, 10.0, 20.0, 30.0], &[0, 0, 0, 0]);
    Ok(())
}

/// What Nearest drops, or remarks as folded, is the edge here, of code 0.
#[test]
fn replicate() -> Result<(), Refusal> {
    for (by, order, lane) in [
        (2.0, 1, [10.0, 10.0, 10.0, 20.0]),
        (-2.0, 1, [30.0, 40.0, 40.0, 40.0]),
        (0.5, 1, [10.0, 15.0, 25.0, 35.0]),
        (1048575.5, 1, [10.0; 4]),
        (-1048575.5, 1, [40.0; 4]),
        (2.0, 0, [10.0, 10.0, 10.0, 20.0]),
        (-0.5, 0, [20.0, 30.0, 40.0, 40.0]),
    ] {
        let repeated = shift_last(by, order, BorderMode::Replicate)?;
        assert_lanes(&repeated, &lane, &[COMPUTED; 4]);
    }
    Ok(())
}

/// Above order 1 the edge is blended with its neighbours, clamped to it in their turn: an eighth of 30,
/// three quarters of 40, and an eighth of 40 again.
#[test]
fn replicate_above_order_1() -> Result<(), Refusal> {
    let r = Request {
        prefilter: false,
        ..request([0.0, 0.0, -3.0], 2, BorderMode::Replicate)
    };
    assert_lanes(&shift(&r, &LANE.repeat(4))?, &[38.75; 4], &[FOLDED; 4]);

    // Prefiltered, half a voxel before the scan: Nearest goes on along the spline.
    for (mode, first) in [(BorderMode::Nearest, 9.19), (BorderMode::Replicate, 10.0)] {
        assert!((shift_last(0.5, 3, mode)?.voxels[0] - first).abs() < 0.005);
    }
    Ok(())
}

/// Inside the scan Replicate is Nearest: the same filter, pad and neighbours.
#[test]
fn replicate_inside() {
    for order in 2..=5 {
        let [nearest, replicate] = [BorderMode::Nearest, BorderMode::Replicate].map(|mode| {
            let r = request([1.5, 2.0, 1.75], order, mode);
            let lanes = LANE.repeat(4);
            (zoom(&r, &lanes), spline_filter(&r, &lanes))
        });
        assert!(nearest.0.is_ok() && nearest.1.is_ok());
        assert_eq!(replicate, nearest);
    }
}

/// A folded neighbour is remarked, a folded coordinate is not.
#[test]
fn folded_neighbours() -> Result<(), Refusal> {
    let reflected = shift_last(0.5, 1, BorderMode::Reflect)?;
    assert_lanes(&reflected, &[10.0, 15.0, 25.0, 35.0], &[3, 0, 0, 0]);
    let mirrored = shift_last(0.5, 1, BorderMode::Mirror)?;
    assert_lanes(&mirrored, &[15.0, 15.0, 25.0, 35.0], &[0, 0, 0, 0]);
    let nearest = shift_last(0.25, 1, BorderMode::Nearest)?;
    assert_lanes(&nearest, &[10.0, 17.5, 27.5, 37.5], &[3, 0, 0, 0]);
    Ok(())
}

/// The codes along the last axis of 7, in the middle of the other two. At whole coordinates order 1
/// gives its second neighbour the weight 0; order 3 gives its last 2^-53, which is not 0.
#[test]
fn codes_of_a_volume_that_is_not_moved() -> Result<(), Refusal> {
    for (order, codes) in [
        (0, [0; 7]),
        (1, [0; 7]),
        (2, [3, 0, 0, 0, 0, 0, 3]),
        (3, [3, 0, 0, 0, 0, 3, 3]),
        (4, [3, 3, 0, 0, 0, 3, 3]),
        (5, [3, 3, 0, 0, 0, 3, 3]),
    ] {
        let r = Request {
            dims: [7; 3],
            ..request([0.0; 3], order, BorderMode::Nearest)
        };
        let still = shift(&r, &[7.0; 343])?;
        let lane = (3 * 7 + 3) * 7;
        assert_eq!(still.coverage[lane..lane + 7], codes, "order {order}");
        assert_counted(&still);
    }
    Ok(())
}

#[test]
fn zoom_by_7_over_4() -> Result<(), Refusal> {
    let r = request([1.0, 1.0, 1.75], 1, BorderMode::Mirror);
    let lane = [10.0, 15.0, 20.0, 25.0, 30.0, 35.0, 40.0];
    assert_lanes(&zoom(&r, &LANE.repeat(4))?, &lane, &[0; 7]);
    Ok(())
}

#[test]
fn reflect_drops_a_plane() -> Result<(), Refusal> {
    let r = request([8.0, 0.0, 0.0], 1, BorderMode::Reflect);
    let far = shift(&r, &LANE.repeat(4))?;
    assert_eq!(far.voxels, [[0.0; 8].to_vec(), LANE.repeat(2)].concat());
    assert_eq!(far.coverage, [[2; 8], [0; 8]].concat());
    assert_counted(&far);
    Ok(())
}

/// The bits are those that `crates/worked` is held to.
#[test]
fn coefficients_of_a_lane() -> Result<(), Refusal> {
    let r = request([0.0; 3], 3, BorderMode::Mirror);
    let lane = [
        0x400f_ffff_ffff_fff1,
        0x4036_0000_0000_0002,
        0x403b_ffff_ffff_fffe,
        0x4047_0000_0000_0000,
    ];
    let bits: Vec<u64> = spline_filter1d(&r, 2, &LANE.repeat(4))?
        .into_iter()
        .map(f64::to_bits)
        .collect();
    assert_eq!(bits, lane.repeat(4));
    Ok(())
}
