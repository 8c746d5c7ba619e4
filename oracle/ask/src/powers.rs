//! `f64::powi` beside repeated squaring from the low bit. Rust leaves the precision of `powi`
//! open, so whether the two agree is asked of each build.

use ndarray_ndimage::probe;

/// The longest line that is filtered: an axis of 4,096 with 12 added at both ends.
const LONGEST: u32 = 4120;

/// Prints how many powers of the poles differ.
pub fn print_comparison() {
    let poles: Vec<f64> = (2..=5).flat_map(probe::poles).collect();
    let (mut compared, mut different) = (0, 0);
    for pole in &poles {
        for exponent in 0..=LONGEST {
            let (powi, squared) = (pole.powi(exponent as i32), by_squaring(*pole, exponent));
            compared += 1;
            different += u32::from(powi.to_bits() != squared.to_bits());
        }
    }
    let count = poles.len();
    println!(
        "powi: {count} poles, exponents 0 to {LONGEST}, {compared} compared, {different} differ"
    );
}

fn by_squaring(base: f64, exponent: u32) -> f64 {
    let (mut square, mut left, mut power) = (base, exponent, 1.0);
    loop {
        if left & 1 == 1 {
            power *= square;
        }
        left >>= 1;
        if left == 0 {
            return power;
        }
        square *= square;
    }
}
