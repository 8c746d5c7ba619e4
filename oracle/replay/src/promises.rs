//! What the file promises to have: every entry, mode, order and flag carried out, shifts that drop or
//! clamp some voxels and leave others, shifts and zooms that fold some voxels' neighbours and no others',
//! axes of length 1, and every refusal of every entry.

use requests::document::MOVED_SINGLE;
use requests::request::{Asked, Entry, CONSTANT, ENTRIES, MODES, NEAREST, REFLECT, REPLICATE};

use crate::record::Answered;

/// Says which promised call is missing.
pub fn check(calls: &[Answered]) -> Result<(), String> {
    for entry in ENTRIES {
        for number in refusals(entry) {
            find(calls, entry, &format!("refusal {number}"), |call| {
                call.answer == *number
            })?;
        }
        for mode in MODES {
            for order in orders(entry) {
                let what = format!("mode {mode}, order {order}");
                let is_of = |call: &Answered| {
                    call.answer == 0 && (call.asked.mode, call.asked.order) == (mode, order)
                };
                let what_thin = format!("{what}, an axis of length 1");
                find(calls, entry, &what_thin, |call| {
                    is_of(call) && call.asked.has_single()
                })?;
                let folds = entry.resamples() && order >= first_to_fold(mode);
                if folds {
                    let what = format!("{what}, codes 0 and 3");
                    find(calls, entry, &what, |call| is_of(call) && folds_some(call))?;
                }
                for choice in choices(entry) {
                    let what = format!("{what}, flag or axis {choice}");
                    let is_it = |call: &Answered| is_of(call) && chosen(call) == choice;
                    find(calls, entry, &what, is_it)?;
                    if entry == Entry::Shift && DROPPING.contains(&mode) {
                        let what = format!("{what}, some voxels dropped");
                        find(calls, entry, &what, |call| is_it(call) && drops_some(call))?;
                    }
                    if entry == Entry::Shift && mode == REPLICATE {
                        let what = format!("{what}, some voxels clamped");
                        find(calls, entry, &what, |call| {
                            is_it(call) && clamps_some(&call.asked)
                        })?;
                    }
                    if folds {
                        let what = format!("{what}, code 3");
                        find(calls, entry, &what, |call| {
                            is_it(call) && call.counts[3] > 0
                        })?;
                    }
                }
            }
        }
    }
    Ok(())
}

/// Code 3 begins at order 1, and where coordinates are clamped at order 2.
fn first_to_fold(mode: u32) -> usize {
    match mode {
        REPLICATE => 2,
        _ => 1,
    }
}

/// The modes that drop voxels.
const DROPPING: [u32; 3] = [CONSTANT, NEAREST, REFLECT];

fn refusals(entry: Entry) -> &'static [u32] {
    match entry {
        Entry::Shift => &[1, 3, 4, MOVED_SINGLE, 6, 7, 8, 9],
        Entry::Zoom => &[1, 3, 4, MOVED_SINGLE, 5, 6, 7, 8],
        Entry::SplineFilter => &[1, 3, 6, 7, 8],
        Entry::SplineFilter1d => &[1, 2, 3, 6, 7, 8],
    }
}

fn orders(entry: Entry) -> std::ops::RangeInclusive<usize> {
    match entry {
        Entry::SplineFilter => 2..=5,
        _ => 0..=5,
    }
}

/// The flags, the axes, or nothing to choose.
fn choices(entry: Entry) -> std::ops::Range<usize> {
    match entry {
        Entry::Shift | Entry::Zoom => 0..2,
        Entry::SplineFilter => 0..1,
        Entry::SplineFilter1d => 0..3,
    }
}

fn chosen(call: &Answered) -> usize {
    match call.asked.entry {
        Entry::Shift | Entry::Zoom => call.asked.prefilter as usize,
        Entry::SplineFilter => 0,
        Entry::SplineFilter1d => call.asked.axis,
    }
}

fn drops_some(call: &Answered) -> bool {
    let [computed, filled, defaulted, folded] = call.counts;
    computed + folded > 0 && filled + defaulted > 0
}

/// Whether some index of an axis is clamped, and some of each axis is not.
fn clamps_some(asked: &Asked) -> bool {
    let outputs = asked.output_dims();
    let is_clamped = |axis, index| asked.coordinate(axis, index) != asked.settled(axis, index);
    (0..3).any(|axis| (0..outputs[axis]).any(|index| is_clamped(axis, index)))
        && (0..3).all(|axis| !(0..outputs[axis]).all(|index| is_clamped(axis, index)))
}

fn folds_some(call: &Answered) -> bool {
    let [computed, _, _, folded] = call.counts;
    computed > 0 && folded > 0
}

fn find(
    calls: &[Answered],
    entry: Entry,
    what: &str,
    is_it: impl Fn(&Answered) -> bool,
) -> Result<(), String> {
    let found = calls
        .iter()
        .any(|call| call.asked.entry == entry && is_it(call));
    if found {
        Ok(())
    } else {
        Err(format!("no call of {} has {what}", entry.name()))
    }
}
