//! Reading and writing a file of 128^3 voxels beside a copy of its bytes in memory: all in one run, turn by
//! turn, the best time of each.

use std::hint::black_box;
use std::time::Duration;

use bench::timed;
use vurelika::npy;

const DIMS: [usize; 3] = [128; 3];
const TURNS: usize = 101;

fn main() {
    let voxels: Vec<f64> = (0..DIMS.iter().product())
        .map(|i: usize| i as f64)
        .collect();
    let size = npy::size(DIMS).expect("the library has a size for the file");
    let mut file = vec![1; size];
    let mut copy = vec![2; size];
    let mut read = vec![f64::NAN; voxels.len()];

    let mut best = [Duration::MAX; 3];
    for _ in 0..TURNS {
        let (writing, written) = timed(|| npy::write_into(DIMS, &voxels, &mut file));
        let (copying, ()) = timed(|| copy.copy_from_slice(black_box(&file)));
        let (reading, taken) = timed(|| npy::read_into(&copy, &mut read));
        assert!(written.is_ok() && taken.is_ok(), "the library refuses");
        for (best, turn) in best.iter_mut().zip([copying, reading, writing]) {
            *best = turn.min(*best);
        }
    }
    assert_eq!(read, voxels, "the voxels differ");
    print(size, best.map(|time| time.as_secs_f64()));
}

fn print(size: usize, [copying, reading, writing]: [f64; 3]) {
    println!("\n.npy of {DIMS:?}, {size} bytes, best of {TURNS}");
    println!("             ms  to memcpy");
    for (name, time) in [("memcpy", copying), ("read", reading), ("write", writing)] {
        println!("{name:6}{:9.3}{:11.2}", 1e3 * time, time / copying);
    }
}
