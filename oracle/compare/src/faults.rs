//! Faults planted in an outcome of the library, each of which must be noticed.

use ndarray_ndimage::probe::gain;
use requests::alone::{self, Left};
use requests::document::{MOVED_SINGLE, OUTSIDE};
use requests::expected;
use requests::lent::GUARD;
use requests::outcome::Outcome;
use requests::plan::Plan;
use requests::request::{Alone, Asked, Entry, CONSTANT, MIRROR, NEAREST, REPLICATE};
use requests::spoils::sound;
use requests::theirs;

use crate::ours::{self, Library, Linked};

/// A fault in what a call left.
type FaultIn<T> = (&'static str, fn(&mut T));
type Fault = FaultIn<Outcome>;

const IN_SUCCESS: [Fault; 11] = [
    ("a bit of a voxel", |o| o.lent.output.lent_mut()[5] ^= 1),
    ("the sign of a voxel", |o| {
        o.lent.output.lent_mut()[0] ^= 1 << 63
    }),
    ("a code", |o| o.lent.coverage.lent_mut()[3] ^= 1),
    ("a count", |o| o.lent.counts.lent_mut()[1] += 1),
    ("a bit of a coefficient", |o| o.lent.work.lent_mut()[7] ^= 1),
    ("work beyond what is needed", |o| {
        *o.lent.work.lent_mut().last_mut().expect("a place") = 0
    }),
    ("a voxel of the input", |o| o.lent.input.lent_mut()[2] ^= 1),
    ("a byte before what is lent", |o| {
        o.lent.coverage.whole_mut()[GUARD - 1] ^= 1
    }),
    ("a refusal", |o| o.status = 9),
    ("an output length", |o| o.zoom_lengths[0] += 1),
    ("the places of work", |o| o.work_count -= 1),
];

/// Where voxels bear 0, 1 and 3.
const IN_CODES_OF_CONSTANT: [Fault; 9] = [
    ("a folded neighbour that is not remarked", |o| {
        recode(o, 3, 0)
    }),
    ("one that is, and was not folded", |o| recode(o, 0, 3)),
    ("a filled voxel called folded", |o| recode(o, 1, 3)),
    ("a folded one called filled", |o| recode(o, 3, 1)),
    ("a code that there is not", |o| *voxel_of(o, 3) = 4),
    ("the count of 3 lost", |o| o.lent.counts.lent_mut()[3] = 0),
    ("the count of 3 added to that of 0", |o| {
        let counts = o.lent.counts.lent_mut();
        counts[0] += std::mem::take(&mut counts[3]);
    }),
    ("the count of 3 in the place of that of 2", |o| {
        o.lent.counts.lent_mut().swap(2, 3)
    }),
    ("the fourth count left as it was", leave_fourth_count),
];

/// Where voxels bear 0, 2 and 3.
const IN_CODES_OF_NEAREST: [Fault; 2] = [
    ("a defaulted voxel called folded", |o| recode(o, 2, 3)),
    ("a folded one called defaulted", |o| recode(o, 3, 2)),
];

/// Where every voxel bears 0, and Nearest drops the first and folds a neighbour of the last.
const IN_REPLICATE: [Fault; 3] = [
    ("an edge not repeated", |o| {
        recode(o, 0, 2);
        o.lent.output.lent_mut()[0] = 0;
    }),
    ("a repeated edge called defaulted", |o| recode(o, 0, 2)),
    ("a repeated edge called folded", |o| recode(o, 0, 3)),
];

/// The same at order 0, where every other mode has refusal 9.
const IN_REPLICATE_AT_ORDER_0: [Fault; 2] = [
    ("refusal 9 in Replicate", |o| o.status = 9),
    ("a voxel beside the repeated edge", |o| {
        let output = o.lent.output.lent_mut();
        output[3] = output[1];
    }),
];

const IN_REFUSAL: [Fault; 8] = [
    ("another refusal", |o| o.status = 8),
    ("success", |o| o.status = 0),
    ("a voxel written", |o| o.lent.output.lent_mut()[0] = 0),
    ("a code written", |o| o.lent.coverage.lent_mut()[0] ^= 1),
    ("work written", |o| o.lent.work.lent_mut()[0] = 0),
    ("a count that is not 0", |o| {
        o.lent.counts.lent_mut()[2] = 24
    }),
    ("the fourth count left as it was", leave_fourth_count),
    ("a place after what is lent", |o| {
        *o.lent.counts.whole_mut().last_mut().expect("a place") = 0
    }),
];

/// Where counts has three places.
const IN_THREE_COUNTS: [Fault; 2] = [
    ("three counts taken", |o| o.status = 0),
    ("three counts written", |o| o.lent.counts.lent_mut().fill(0)),
];

/// 1 by 2 by 4 voxels moved in Nearest, the first axis by -0.0.
const IN_THIN_VOLUME: [Fault; 2] = [
    ("12 for -0.0", |o| o.status = MOVED_SINGLE),
    ("24 places more on an axis of length 1", |o| {
        o.work_count *= 25
    }),
];

/// One lane of 4, whose ends alone bear 3.
const IN_LANE_ALONE: [Fault; 1] = [("code 3 by an axis of length 1", |o| recode(o, 0, 3))];

/// A filter along an axis of length 1.
const IN_LANES_OF_ONE: [Fault; 1] = [("the gain on a lane of one", |o| {
    for place in o.lent.output.lent_mut() {
        *place = (f64::from_bits(*place) * gain(3)).to_bits();
    }
})];

/// A zoom of 1 by 2 by 4 voxels by 0.5, 0.5 and 1, and one by 0.5, 1 and 0.
const IN_12_AND_5: [Fault; 1] = [("5 before 12", |o| o.status = 5)];
const IN_4_AND_12: [Fault; 1] = [("12 before 4", |o| o.status = MOVED_SINGLE)];

/// One by 1.5, 1 and 1.
const IN_12: [Fault; 2] = [
    ("factor 1.5 taken", |o| o.status = 0),
    ("a length of 2 for one voxel", |o| o.zoom_lengths[0] = 2),
];

/// One by 1, 0.5 and 1.
const IN_5: [Fault; 2] = [
    ("a longer axis zoomed to 1", |o| o.status = 0),
    ("a length of 1 for two voxels", |o| o.zoom_lengths[1] = 1),
];

/// A shift of 1 by 2 by 4 voxels by the least number, and one of 0 by 2 by 4.
const IN_LEAST_SHIFT: [Fault; 1] = [("the least shift taken", |o| o.status = 0)];
const IN_NO_LENGTH: [Fault; 1] = [("length 0 taken", |o| o.status = 0)];

/// The last voxel of `kept`, asked for alone.
const LAST: [usize; 3] = [1, 2, 3];

const IN_LAST_VOXEL: [FaultIn<Left>; 6] = [
    ("a bit of one voxel", |l| l.lent.output.lent_mut()[0] ^= 1),
    ("the code of one voxel", |l| {
        l.lent.coverage.lent_mut()[0] ^= 1
    }),
    ("the last index called outside", |l| {
        l.lent.lend_one(&Alone::at(LAST));
        l.status = OUTSIDE;
    }),
    ("one voxel of the input, not of work", sum_input),
    ("work written for one voxel", |l| {
        l.lent.work.lent_mut()[0] ^= 1
    }),
    ("a place beside one voxel", |l| {
        l.lent.output.whole_mut()[GUARD + 1] = 0
    }),
];

/// Where the last index is the length.
const IN_VOXEL_OUTSIDE: [FaultIn<Left>; 4] = [
    ("an index at the length taken", |l| {
        l.status = 0;
        l.lent.output.lent_mut()[0] = 0;
        l.lent.coverage.lent_mut()[0] = 0;
    }),
    ("another refusal than 11", |l| l.status = 9),
    ("a value written outside", |l| {
        l.lent.output.lent_mut()[0] = 0
    }),
    ("a code written outside", |l| {
        l.lent.coverage.lent_mut()[0] = 0
    }),
];

/// Where the value of the last voxel has two places.
const IN_TWO_VALUES: [FaultIn<Left>; 2] = [
    ("two values taken", |l| l.status = 0),
    ("one of two values written", |l| {
        l.lent.output.lent_mut()[0] = 0
    }),
];

/// The value that the last voxel has where input is read for coefficients.
fn sum_input(left: &mut Left) {
    let request = kept().request();
    let voxel = theirs::voxel(&request.asked, &request.input, LAST);
    let (value, _) = voxel.expect("no panic in the Rust");
    left.lent.output.lent_mut()[0] = value.to_bits();
}

/// The first voxel that bears the code.
fn voxel_of(outcome: &mut Outcome, code: u8) -> &mut u8 {
    let mut codes = outcome.lent.coverage.lent_mut().iter_mut();
    codes.find(|c| **c == code).expect("a voxel of the code")
}

/// Gives the first voxel of a code another one, and counts it so.
fn recode(outcome: &mut Outcome, from: u8, to: u8) {
    *voxel_of(outcome, from) = to;
    let counts = outcome.lent.counts.lent_mut();
    counts[from as usize] -= 1;
    counts[to as usize] += 1;
}

/// The marks before a call go down by one from place to place.
fn leave_fourth_count(outcome: &mut Outcome) {
    let counts = outcome.lent.counts.whole_mut();
    counts[GUARD + 3] = counts[GUARD + 4] + 1;
}

/// Voxels that are dropped, that are kept, and that are kept with a folded neighbour; in Replicate, some
/// that are clamped below and some above.
fn of_three_codes(mode: u32) -> Plan {
    let asked = Asked {
        factors: [0.0, 1.0, -0.5],
        order: 1,
        mode,
        ..sound(Entry::Shift).asked
    };
    Plan::of(asked, 1)
}

/// A shift with a prefilter that drops no voxel.
fn kept() -> Plan {
    let mut kept = sound(Entry::Shift);
    kept.asked.mode = MIRROR;
    kept
}

/// 1 by 2 by 4 voxels; Nearest.
fn thin(entry: Entry, factors: [f64; 3]) -> Plan {
    let asked = Asked {
        dims: [1, 2, 4],
        factors,
        axis: 0,
        mode: NEAREST,
        ..sound(entry).asked
    };
    Plan::of(asked, 1)
}

/// How many faults were planted; or the first that was not noticed.
pub fn all_noticed() -> Result<usize, String> {
    let mut success = sound(Entry::Shift);
    success.off.work = 1;
    let mut refusal = success;
    refusal.off.output = 1;
    let mut three_counts = success;
    three_counts.off.counts = -1;
    let mut order_0 = of_three_codes(REPLICATE);
    order_0.asked.order = 0;
    let mut lane = thin(Entry::Shift, [0.0; 3]);
    (lane.asked.dims, lane.asked.order) = ([1, 1, 4], 2);
    let mut no_length = lane;
    no_length.asked.dims[0] = 0;
    let planted: [(Plan, u32, &[Fault]); 16] = [
        (success, 0, &IN_SUCCESS),
        (of_three_codes(CONSTANT), 0, &IN_CODES_OF_CONSTANT),
        (of_three_codes(NEAREST), 0, &IN_CODES_OF_NEAREST),
        (of_three_codes(REPLICATE), 0, &IN_REPLICATE),
        (order_0, 0, &IN_REPLICATE_AT_ORDER_0),
        (refusal, 7, &IN_REFUSAL),
        (three_counts, 7, &IN_THREE_COUNTS),
        (thin(Entry::Shift, [-0.0, 0.5, 1.5]), 0, &IN_THIN_VOLUME),
        (lane, 0, &IN_LANE_ALONE),
        (thin(Entry::SplineFilter1d, [0.0; 3]), 0, &IN_LANES_OF_ONE),
        (thin(Entry::Zoom, [0.5, 0.5, 1.0]), 12, &IN_12_AND_5),
        (thin(Entry::Zoom, [0.5, 1.0, 0.0]), 4, &IN_4_AND_12),
        (thin(Entry::Zoom, [1.5, 1.0, 1.0]), 12, &IN_12),
        (thin(Entry::Zoom, [1.0, 0.5, 1.0]), 5, &IN_5),
        (thin(Entry::Shift, [5e-324, 0.0, 0.0]), 12, &IN_LEAST_SHIFT),
        (no_length, 3, &IN_NO_LENGTH),
    ];
    for (plan, answer, faults) in &planted {
        noticed(plan, *answer, faults)?;
    }
    let [x, y, z] = LAST;
    let two_values = Alone {
        values: 2,
        ..Alone::at(LAST)
    };
    let planted_alone: [(Alone, u32, &[FaultIn<Left>]); 3] = [
        (Alone::at(LAST), 0, &IN_LAST_VOXEL),
        (Alone::at([x, y, z + 1]), OUTSIDE, &IN_VOXEL_OUTSIDE),
        (two_values, 7, &IN_TWO_VALUES),
    ];
    for (alone, answer, faults) in &planted_alone {
        noticed_alone(alone, *answer, faults)?;
    }
    let counts = planted.iter().map(|(_, _, faults)| faults.len());
    let counts_alone = planted_alone.iter().map(|(_, _, faults)| faults.len());
    Ok(counts.chain(counts_alone).sum())
}

fn noticed(plan: &Plan, answer: u32, faults: &[Fault]) -> Result<(), String> {
    let request = plan.request();
    let expected = expected::outcome(&request)?;
    let outcome = ours::call(&request);
    answers(outcome.status, answer)?;
    each_noticed(&outcome, faults, |outcome| outcome.difference(&expected))
}

/// In one voxel of `kept`.
fn noticed_alone(alone: &Alone, answer: u32, faults: &[FaultIn<Left>]) -> Result<(), String> {
    let request = kept().request();
    let whole = expected::outcome(&request)?;
    let Outcome {
        status, mut lent, ..
    } = ours::call(&request);
    lent.lend_one(alone);
    let mut left = Left { status, lent };
    let mut expected = left.clone();
    Linked.voxel(&request.asked, alone.at, &mut left)?;
    alone::expect(&request, alone, Some(&whole), &mut expected)?;
    answers(left.status, answer)?;
    each_noticed(&left, faults, |left| left.difference(&expected))
}

fn answers(status: u32, answer: u32) -> Result<(), String> {
    if status == answer {
        Ok(())
    } else {
        Err(format!("the answer is {status}, not {answer}"))
    }
}

/// Nothing differs, and with each of the faults something does.
fn each_noticed<T: Clone>(
    left: &T,
    faults: &[FaultIn<T>],
    difference: impl Fn(&T) -> Option<String>,
) -> Result<(), String> {
    if let Some(difference) = difference(left) {
        return Err(difference);
    }
    for (name, plant) in faults {
        let mut faulty = left.clone();
        plant(&mut faulty);
        if difference(&faulty).is_none() {
            return Err(format!("not noticed: {name}"));
        }
    }
    Ok(())
}
