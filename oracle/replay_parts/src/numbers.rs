//! Numbers to ask about, all from fixed lists and seeds, and the roundings of some.

use ndarray_ndimage::probe;
use ndarray_ndimage::BorderMode;
use shared::{Seeded, Words};

/// The modes, in the order of their numbers in the file. The fill reaches no answer here.
pub const MODES: [BorderMode<f64>; 5] = [
    BorderMode::Constant(-3.5),
    BorderMode::Mirror,
    BorderMode::Nearest,
    BorderMode::Reflect,
    BorderMode::Wrap,
];

/// How many numbers each stretch of the pool has.
pub const STRETCH: usize = 256;

/// What lanes and volumes are made of, four stretches: ordinary numbers, subnormals, numbers large
/// and small side by side, and zeros of both signs with a few others.
pub fn pool() -> Vec<f64> {
    let mut seeded = Seeded::new(1);
    let mut pool = Vec::new();
    for _ in 0..STRETCH {
        pool.push(seeded.between(-1024.0, 1024.0));
    }
    for _ in 0..STRETCH {
        let bits = seeded.bits();
        pool.push(f64::from_bits(
            bits & (1 << 63) | (bits & 0x7fff_ffff_ffff_ffff) >> 11,
        ));
    }
    for i in 0..STRETCH {
        let large = if i % 3 == 0 { 2f64.powi(100) } else { 1.0 };
        pool.push(seeded.between(-1.0, 1.0) * large);
    }
    for i in 0..STRETCH {
        pool.push(match i % 11 {
            3 => 1.0,
            5 => -5e-324,
            i if i % 2 == 0 => -0.0,
            _ => 0.0,
        });
    }
    pool
}

/// Numbers that are next to others, or tiny, or both.
pub fn beside(x: f64) -> [f64; 3] {
    [x.next_down(), x, x.next_up()]
}

pub const TINY: [f64; 10] = [
    0.0,
    -0.0,
    5e-324,
    -5e-324,
    1e-310,
    -1e-310,
    1.0 / (1u64 << 53) as f64,
    -1.0 / (1u64 << 53) as f64,
    1.0 / (1u64 << 54) as f64,
    -1.0 / (1u64 << 54) as f64,
];

/// x, its floor, and the nearest whole number, for which the Rust's helper stands below 2^31.
pub fn roundings() -> Vec<Words> {
    let mut seeded = Seeded::new(2);
    let mut at: Vec<f64> = TINY.to_vec();
    for whole in [0.5, 1.0, 1.5, 2.0, 2.5, 3.5, 4096.5, 8191.5, 2147483645.5] {
        at.extend(beside(whole));
        at.extend(beside(-whole));
    }
    for size in [4.0, 100.0, 2147483647.0] {
        for _ in 0..40 {
            at.push(seeded.between(-size, size));
        }
    }
    at.iter()
        .map(|&x| {
            let mut case = Words::new();
            case.floats(&[x, x.floor(), probe::round_ties_even(x)]);
            case
        })
        .collect()
}
