//! Changes that bring a request to a limit of documents 01 and 02, on the one side or the other.

use crate::document::{FARTHEST, LARGEST};
use crate::plan::Plan;
use crate::request::{Asked, Entry, CONSTANT, MIRROR, NEAREST, REPLICATE};

pub type Spoil = fn(&mut Plan);

/// A request that is carried out, on which each change below tells.
pub fn sound(entry: Entry) -> Plan {
    let asked = Asked {
        entry,
        dims: [2, 3, 4],
        factors: match entry {
            Entry::Zoom => [1.5, 1.0, 1.75],
            _ => [0.5, -1.0, 0.25],
        },
        order: 3,
        axis: 1,
        prefilter: 1,
        mode: CONSTANT,
        fill: -1.0,
    };
    Plan::of(asked, 1)
}

/// Gives some axes the length 1, and this factor or the one that leaves them still.
fn make_single(plan: &mut Plan, which: [bool; 3], factor: Option<f64>) {
    let mut asked = plan.asked.still(which);
    for axis in (0..3).filter(|axis| which[*axis]) {
        asked.dims[axis] = 1;
        asked.factors[axis] = factor.unwrap_or(asked.factors[axis]);
    }
    plan.asked = asked;
}

pub const SPOILS: &[Spoil] = &[
    // 1
    |p| p.asked.order = 0,
    |p| p.asked.order = 1,
    |p| p.asked.order = 5,
    |p| p.asked.order = 6,
    |p| p.asked.order = usize::MAX,
    // 2
    |p| p.asked.axis = 2,
    |p| p.asked.axis = 3,
    |p| p.asked.axis = usize::MAX,
    // 3
    |p| p.asked.dims[0] = 0,
    |p| p.asked.dims[1] = 0,
    |p| p.asked.dims[1] = 2,
    |p| p.asked.dims[2] = 4097,
    |p| p.asked.dims[0] = usize::MAX,
    |p| p.asked.dims = [1 << 32; 3],
    // 4
    |p| p.asked.factors[0] = f64::NAN,
    |p| p.asked.factors[1] = f64::INFINITY,
    |p| p.asked.factors[2] = f64::NEG_INFINITY,
    |p| p.asked.factors[0] = FARTHEST,
    |p| p.asked.factors[1] = -FARTHEST,
    |p| p.asked.factors[2] = FARTHEST.next_down(),
    |p| p.asked.factors[0] = -FARTHEST.next_down(),
    |p| p.asked.factors[1] = 1_048_575.5,
    |p| p.asked.factors[2] = 0.0,
    |p| p.asked.factors[0] = -0.0,
    |p| p.asked.factors[1] = -1.0,
    |p| p.asked.factors[2] = 4096.0f64.next_up(),
    // 12, but for the filters; where the axis is left still none, nor at these zooms
    |p| p.asked.dims[0] = 1,
    |p| make_single(p, [true, false, false], None),
    |p| make_single(p, [false, true, true], None),
    |p| make_single(p, [true; 3], None),
    |p| make_single(p, [true, false, false], Some(-0.0)),
    |p| make_single(p, [false, true, false], Some(5e-324)),
    |p| make_single(p, [false, false, true], Some(-5e-324)),
    |p| make_single(p, [true, false, false], Some(0.5)),
    |p| make_single(p, [true, false, false], Some(0.5f64.next_up())),
    |p| make_single(p, [true, false, false], Some(1.5f64.next_down())),
    |p| make_single(p, [true, false, false], Some(1.5)),
    |p| make_single(p, [false, true, false], Some(4096.0)),
    // 5, at a factor that is taken
    |p| p.asked.factors[0] = 4096.0,
    |p| p.asked.factors[1] = 5e-324,
    |p| (p.asked.dims[0], p.asked.factors[0]) = (2, 0.75),
    |p| (p.asked.dims[0], p.asked.factors[0]) = (2, 0.75f64.next_down()),
    |p| (p.asked.dims[1], p.asked.factors[1]) = (3, 0.5),
    |p| (p.asked.dims[1], p.asked.factors[1]) = (3, 0.5f64.next_down()),
    |p| (p.asked.dims[2], p.asked.factors[2]) = (4, 1024.125),
    |p| (p.asked.dims[2], p.asked.factors[2]) = (4, 1024.125f64.next_up()),
    // 6: input, work, output; none where an axis has length 1
    |p| p.asked.dims = [512, 512, 512],
    |p| p.asked.dims = [512, 513, 512],
    |p| p.asked.dims = [4096, 4096, 4096],
    |p| (p.asked.dims, p.asked.mode) = ([488, 488, 488], NEAREST),
    |p| (p.asked.dims, p.asked.mode) = ([488, 488, 489], NEAREST),
    |p| (p.asked.dims, p.asked.mode) = ([488, 488, 488], REPLICATE),
    |p| (p.asked.dims, p.asked.mode) = ([488, 488, 489], REPLICATE),
    |p| {
        p.asked = p.asked.still([true; 3]);
        (p.asked.dims, p.asked.mode) = ([1, 4096, 4096], NEAREST)
    },
    |p| (p.asked.dims, p.asked.factors) = ([2, 2, 2], [2048.0, 2048.0, 4.0]),
    |p| (p.asked.dims, p.asked.factors) = ([2, 2, 2], [4.5, 2048.0, 2048.0]),
    // 7
    |p| p.off.input -= 1,
    |p| p.off.input += 1,
    |p| p.off.output -= 1,
    |p| p.off.output += 1,
    |p| p.off.coverage -= 1,
    |p| p.off.coverage += 1,
    |p| p.off.work -= 1,
    |p| p.off.work += 1,
    |p| p.off.counts -= 1,
    |p| p.off.counts += 1,
    |p| p.off.counts -= 4,
    |p| p.off.output -= isize::MAX,
    |p| p.asked.prefilter = 0,
    // 8
    |p| p.flaw = Some(f64::NAN),
    |p| p.flaw = Some(f64::INFINITY),
    |p| p.flaw = Some(-LARGEST.next_up()),
    |p| p.flaw = Some(LARGEST),
    |p| p.asked.fill = f64::NAN,
    |p| p.asked.fill = f64::NEG_INFINITY,
    |p| p.asked.fill = LARGEST.next_up(),
    |p| p.asked.fill = -LARGEST,
    |p| (p.asked.mode, p.asked.fill) = (MIRROR, f64::NAN),
    |p| (p.asked.mode, p.asked.fill) = (REPLICATE, f64::INFINITY),
    // 9, which Replicate never meets
    |p| (p.asked.order, p.asked.factors) = (0, [0.0, 0.0, -0.5]),
    |p| (p.asked.order, p.asked.factors) = (0, [5.0, 0.0, -0.5]),
    |p| (p.asked.order, p.asked.factors) = (0, [0.0, 0.5, -0.5f64.next_down()]),
    |p| (p.asked.mode, p.asked.order, p.asked.factors) = (REPLICATE, 0, [5.0, 0.75, -0.5]),
    // 255
    |p| p.asked.mode = REPLICATE + 1,
    |p| p.asked.mode = 255,
    |p| p.asked.mode = u32::MAX,
];
