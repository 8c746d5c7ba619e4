//! Volumes: filtered along one axis and along all, lanes of every length, and edge pads.

use ndarray::{Array3, Axis};
use ndarray_ndimage::{pad, probe, spline_filter, spline_filter1d, BorderMode, PadMode};
use shared::Words;

use crate::axes::by_mode;
use crate::numbers::STRETCH;

fn bits(values: &[f64]) -> Vec<u64> {
    values.iter().map(|value| value.to_bits()).collect()
}

fn floats(bits: &[u64]) -> Vec<f64> {
    bits.iter().copied().map(f64::from_bits).collect()
}

/// Length, order, modes, where in the pool each of two lanes starts, then both lanes filtered. The
/// first lane has ordinary numbers, the second those of another stretch.
pub fn lanes(pool: &[f64]) -> Vec<Words> {
    let mut cases = Vec::new();
    for length in (2..=45).chain([96, 200]) {
        for order in 2..=5 {
            let room = STRETCH - length;
            let starts = [
                (31 * length + 7 * order) % room,
                (1 + (length + order) % 3) * STRETCH + 13 * length % room,
            ];
            let both = |mode: BorderMode<f64>| -> Vec<u64> {
                let lane =
                    |start: usize| bits(&probe::lane(&pool[start..start + length], order, mode));
                starts.into_iter().flat_map(lane).collect()
            };
            for (modes, filtered) in by_mode(both) {
                let mut case = Words::new();
                case.wholes(&[length, order, modes, starts[0], starts[1]]);
                case.floats(&floats(&filtered));
                cases.push(case);
            }
        }
    }
    cases
}

fn volume(pool: &[f64], dims: [usize; 3], start: usize) -> Array3<f64> {
    let count: usize = dims.iter().product();
    Array3::from_shape_vec(dims, pool[start..start + count].to_vec()).expect("as many as places")
}

fn values(volume: &Array3<f64>) -> &[f64] {
    volume
        .as_slice()
        .expect("the Rust keeps the input's layout")
}

/// Dims, order, modes, axis (3 for all three in turn), start in the pool, then the filtered volume.
pub fn volumes(pool: &[f64]) -> Vec<Words> {
    let small = [
        ([2, 2, 2], 17),
        ([2, 3, 5], 240),
        ([3, 2, 4], 500),
        ([5, 4, 3], 766),
        ([4, 7, 2], 3),
    ];
    let mut cases = Vec::new();
    for (dims, start) in small.into_iter().chain([([9, 5, 12], 1), ([6, 5, 8], 480)]) {
        let input = volume(pool, dims, start);
        let is_small = dims.iter().product::<usize>() < 100;
        for order in 2..=5 {
            for axis in if is_small { 0..=3 } else { 3..=3 } {
                let filtered = |mode: BorderMode<f64>| match axis {
                    3 => bits(values(&spline_filter(&input, order, mode))),
                    _ => bits(values(&spline_filter1d(&input, order, mode, Axis(axis)))),
                };
                for (modes, filtered) in by_mode(filtered) {
                    let mut case = Words::new();
                    case.wholes(&dims);
                    case.wholes(&[order, modes, axis, start]);
                    case.floats(&floats(&filtered));
                    cases.push(case);
                }
            }
        }
    }
    cases
}

/// Dims, start in the pool, number of runs, then the volume padded by twelve as runs: how many
/// voxels in a row have the same bits, and those.
pub fn pads(pool: &[f64]) -> Vec<Words> {
    let mut cases = Vec::new();
    for (dims, start) in [([2, 2, 2], 510), ([3, 2, 2], 766), ([2, 3, 3], 250)] {
        let padded = pad(&volume(pool, dims, start), &[[12, 12]], PadMode::Edge);
        let mut runs: Vec<(usize, u64)> = Vec::new();
        for voxel in bits(values(&padded)) {
            match runs.last_mut() {
                Some((count, run)) if *run == voxel => *count += 1,
                _ => runs.push((1, voxel)),
            }
        }
        let mut case = Words::new();
        case.wholes(&dims);
        case.wholes(&[start, runs.len()]);
        for (count, run) in runs {
            case.whole(count);
            case.float(f64::from_bits(run));
        }
        cases.push(case);
    }
    cases
}
