//! One axis: output lengths, folds, weights, and the records of output indices.

use std::panic::{self, AssertUnwindSafe};

use ndarray_ndimage::probe::{self, Axes, Point};
use ndarray_ndimage::BorderMode;
use shared::{Seeded, Words};

use crate::numbers::{beside, MODES, TINY};

/// Length, factor, output length.
pub fn lengths() -> Vec<Words> {
    let mut seeded = Seeded::new(3);
    let mut cases = Vec::new();
    for length in [2, 3, 5, 7, 12, 255, 1000, 4095, 4096] {
        let mut factors = vec![0.5, 1.0, 1.5, 2.0, 4096.0, 1e-300, 5e-324];
        for whole in [1.0, 2.5, 3.0, 3.5] {
            factors.extend(beside(whole / length as f64));
        }
        for most in [1.0, 4.0, 4096.0] {
            factors.extend((0..4).map(|_| seeded.between(0.0, most)));
        }
        for factor in factors {
            let mut case = Words::new();
            case.whole(length);
            case.float(factor);
            case.whole(probe::zoom_length(length, factor));
            cases.push(case);
        }
    }
    cases
}

/// Length, coordinate, and its fold in each mode.
pub fn folds() -> Vec<Words> {
    let mut seeded = Seeded::new(4);
    let mut cases = Vec::new();
    for length in [2, 3, 4, 7, 12, 97, 4096, 4120] {
        let len = length as f64;
        let mut sizes = vec![0.5, 1.0, 1.5, len - 1.0, len - 0.5, len, len + 1.0];
        for periods in [1.0, 2.0, 3.0, 7.0, 1000.0] {
            for period in [len - 1.0, 2.0 * len - 2.0, 2.0 * len] {
                sizes.push(periods * period);
            }
        }
        let mut at: Vec<f64> = TINY.to_vec();
        for size in sizes {
            at.extend(beside(size));
            at.extend(beside(-size));
        }
        for size in [len, 4.0 * len, 1e6, 1e15] {
            at.extend((0..4).map(|_| seeded.between(-size, size)));
        }
        for power in [26, 32, 53, 63, 100, 1000] {
            at.extend([2f64.powi(power), -2f64.powi(power) - 0.5]);
        }
        for at in at {
            let mut case = Words::new();
            case.whole(length);
            case.float(at);
            for mode in MODES {
                case.float(probe::map_coordinates(at, len, mode));
            }
            cases.push(case);
        }
    }
    cases
}

/// A coordinate, and its weights at orders 1 to 5.
pub fn weights() -> Vec<Words> {
    let mut seeded = Seeded::new(5);
    let mut at: Vec<f64> = TINY.to_vec();
    for size in [0.25, 0.5, 1.0, 1.5, 2.0, 7.5, 4119.0, 4119.5] {
        at.extend(beside(size));
        at.extend(beside(-size));
    }
    for size in [1.0, 8.0, 4120.0] {
        at.extend((0..25).map(|_| seeded.between(-1.0, size)));
    }
    at.extend([
        1e6 + 0.3,
        -1e6 - 0.3,
        1e15 + 0.125,
        1e18,
        -1e18,
        2f64.powi(100),
    ]);
    at.iter()
        .map(|&at| {
            let mut case = Words::new();
            case.float(at);
            for order in 1..=5 {
                case.floats(&probe::build_splines(at, order));
            }
            case
        })
        .collect()
}

/// How an axis maps its output indices.
#[derive(Clone, Copy)]
enum Map {
    Shift(f64),
    /// To an output length.
    Zoom(usize),
}

/// Some output indices of one axis.
struct Asked {
    map: Map,
    length: usize,
    pad: usize,
    order: usize,
    mode: usize,
    first: usize,
    count: usize,
}

impl Asked {
    /// A header, then for each output index its mark: 1 where it is dropped, 2 where the Rust
    /// panics at order 0, and 0 where it is kept. After 0 come weights, then neighbours, of each
    /// order + 1. The one weight of order 0 is not the Rust's, which has none there.
    fn case(&self) -> Words {
        let mut case = Words::new();
        match self.map {
            Map::Shift(_) => case.whole(0),
            Map::Zoom(_) => case.whole(1),
        }
        case.whole(self.length);
        match self.map {
            Map::Shift(shift) => case.float(shift),
            Map::Zoom(output) => case.whole(output),
        }
        case.wholes(&[self.pad, self.order, self.mode, self.first, self.count]);
        for point in self.points() {
            match point {
                None => case.whole(2),
                Some(Point::Dropped) => case.whole(1),
                Some(Point::Kept {
                    neighbours,
                    weights,
                    ..
                }) => {
                    case.whole(0);
                    case.floats(if self.order == 0 { &[1.0] } else { &weights });
                    for at in neighbours {
                        case.whole(usize::try_from(at).expect("a neighbour is an index"));
                    }
                }
            }
        }
        case
    }

    /// The answers for the indices; `None` where the Rust panics. It then makes no table at all, so
    /// each index is asked alone: index 0 at the shift index + shift has the same coordinate.
    fn points(&self) -> Vec<Option<Point>> {
        let shift = match self.map {
            Map::Shift(shift) => -shift,
            Map::Zoom(_) => 0.0,
        };
        let end = self.first + self.count;
        match self.table(end, shift) {
            Some(table) => table.into_iter().skip(self.first).map(Some).collect(),
            None => (self.first..end)
                .map(|index| self.table(1, index as f64 + shift)?.pop())
                .collect(),
        }
    }

    fn table(&self, output: usize, shift: f64) -> Option<Vec<Point>> {
        let zoom = match self.map {
            Map::Shift(_) => 1.0,
            Map::Zoom(output) => (self.length - 1) as f64 / (output - 1) as f64,
        };
        let axes = Axes {
            idim: [self.length; 3],
            odim: [output, 0, 0],
            zooms: [zoom; 3],
            shifts: [shift; 3],
            nb_prepad: self.pad as isize,
        };
        let [table, ..] = quietly(|| axes.points(self.order, MODES[self.mode]))?;
        Some(table)
    }
}

/// What the Rust gives; `None`, and no report, where it panics.
fn quietly<T>(call: impl FnOnce() -> T) -> Option<T> {
    let report = panic::take_hook();
    panic::set_hook(Box::new(|_| {}));
    let outcome = panic::catch_unwind(AssertUnwindSafe(call));
    panic::set_hook(report);
    outcome.ok()
}

/// For every mode, order and pad, short axes under shifts and zooms taken from two lists in turn,
/// and both ends of a long one. At order 0 also shifts that bring an end half a voxel beside the axis
/// or more, where the Rust panics.
pub fn records() -> Vec<Words> {
    let mut shifts = vec![
        0.0, -0.0, 1.0, -1.0, 0.5, -0.5, 0.25, -2.75, 3.0, -5.5, 12.0, -13.0,
    ];
    shifts.extend([12.5, -24.25, 1048576.0, -1048576.0, 1048575.3, -99999.7]);
    shifts.extend(TINY);
    let mut seeded = Seeded::new(6);
    shifts.extend((0..15).map(|_| seeded.between(-9.0, 9.0)));
    let mut shifts = shifts.into_iter().cycle();
    let zooms = [
        (2, 2),
        (2, 5),
        (3, 4),
        (3, 8),
        (4, 3),
        (5, 7),
        (7, 2),
        (9, 6),
        (4, 4),
    ];
    let mut zooms = zooms.into_iter().cycle();
    let mut cases = Vec::new();
    for mode in 0..MODES.len() {
        for order in 0..=5 {
            for pad in [0, 12] {
                let mut ask = |map, length, first, count| {
                    let asked = Asked {
                        map,
                        length,
                        pad,
                        order,
                        mode,
                        first,
                        count,
                    };
                    cases.push(asked.case());
                };
                for length in [2, 2, 3, 3, 4, 5, 8] {
                    ask(Map::Shift(shifts.next().unwrap()), length, 0, length);
                }
                let shift = shifts.next().unwrap();
                ask(Map::Shift(shift), 4096, 0, 3);
                ask(Map::Shift(shift), 4096, 4093, 3);
                for _ in 0..3 {
                    let (length, output) = zooms.next().unwrap();
                    ask(Map::Zoom(output), length, 0, output);
                }
                ask(Map::Zoom(4096), 4095, 4094, 2);
                if order == 0 {
                    for shift in [-0.5, -0.75, 0.75] {
                        ask(Map::Shift(shift), 2, 0, 2);
                        ask(Map::Shift(shift), 5, 0, 5);
                    }
                }
            }
        }
    }
    cases
}

/// The number of a set of modes: mode m counts 2^m.
pub fn set_of(modes: &[usize]) -> usize {
    modes.iter().map(|mode| 1 << mode).sum()
}

/// The answer in each mode, once for all modes that share it.
pub fn by_mode<T: PartialEq>(answer: impl Fn(BorderMode<f64>) -> T) -> Vec<(usize, T)> {
    let mut sets: Vec<(Vec<usize>, T)> = Vec::new();
    for (mode, of_mode) in MODES.into_iter().map(answer).enumerate() {
        match sets.iter_mut().find(|(_, shared)| *shared == of_mode) {
            Some((modes, _)) => modes.push(mode),
            None => sets.push((vec![mode], of_mode)),
        }
    }
    let numbered = sets.into_iter();
    numbered
        .map(|(modes, of_set)| (set_of(&modes), of_set))
        .collect()
}
