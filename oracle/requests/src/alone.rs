//! One voxel asked for alone (document 02, #105): what its call leaves, and what it must leave. The value goes
//! where the volume's call has its output, the code where that has its coverage.

use crate::document;
use crate::lent::Lent;
use crate::outcome::{number, Outcome};
use crate::request::{Alone, Request};
use crate::theirs;

#[derive(Clone)]
pub struct Left {
    pub status: u32,
    pub lent: Lent,
}

impl Left {
    /// The first difference from what is expected, in words.
    pub fn difference(&self, expected: &Left) -> Option<String> {
        number("the answer", self.status, expected.status)
            .or_else(|| self.lent.difference(&expected.lent))
    }
}

/// Makes what is lent what the call must leave. `whole` is what the volume's call must leave, where work holds
/// what that left there; where it holds anything else the voxel is summed by the Rust's tables.
pub fn expect(
    request: &Request,
    alone: &Alone,
    whole: Option<&Outcome>,
    left: &mut Left,
) -> Result<(), String> {
    left.status = document::answer_alone(request, alone);
    if left.status == 0 {
        let (value, code) = match whole {
            Some(whole) => in_volume(request, alone.at, whole),
            None => by_tables(request, alone.at, &left.lent)?,
        };
        left.lent.output.lent_mut()[0] = value;
        left.lent.coverage.lent_mut()[0] = code;
    }
    Ok(())
}

fn in_volume(request: &Request, at: [usize; 3], whole: &Outcome) -> (u64, u8) {
    let place = document::place(request.asked.output_dims(), at);
    let lent = &whole.lent;
    (lent.output.lent()[place], lent.coverage.lent()[place])
}

fn by_tables(request: &Request, at: [usize; 3], lent: &Lent) -> Result<(u64, u8), String> {
    let asked = &request.asked;
    let coefficients = lent.work.lent()[..asked.needed()].iter();
    let coefficients: Vec<f64> = coefficients.copied().map(f64::from_bits).collect();
    let source = if coefficients.is_empty() {
        &request.input
    } else {
        &coefficients
    };
    let voxel = theirs::voxel(asked, source, at);
    let (value, code) = voxel.ok_or("no refusal applies, and the Rust panics")?;
    Ok((value.to_bits(), code))
}

#[cfg(test)]
mod tests {
    use super::*;
    use crate::document::{indices, MOVED_SINGLE, OUTSIDE};
    use crate::plan::Plan;
    use crate::request::{Asked, Entry};
    use crate::single;
    use crate::spoils::{sound, Spoil};

    fn answer(plan: &Plan, alone: &Alone) -> u32 {
        document::answer_alone(&plan.request(), alone)
    }

    /// 2 by 3 by 4 voxels; zoomed, 3 by 3 by 7.
    #[test]
    fn indices_by_hand() {
        for (entry, [d0, d1, d2]) in [(Entry::Shift, [2, 3, 4]), (Entry::Zoom, [3, 3, 7])] {
            let answer = |at| answer(&sound(entry), &Alone::at(at));
            assert_eq!(answer([0; 3]), 0);
            assert_eq!(answer([d0 - 1, d1 - 1, d2 - 1]), 0);
            for at in [[d0, 0, 0], [0, d1, 0], [0, 0, d2], [0, usize::MAX, 0]] {
                assert_eq!(answer(at), OUTSIDE, "{at:?}");
            }
        }
    }

    /// Document 02: 11 "after 01's nine", among which #106 puts 12.
    #[test]
    fn every_other_refusal_comes_first() {
        let spoiled: [(u32, Spoil); 10] = [
            (255, |p| p.asked.mode = 6),
            (1, |p| p.asked.order = 6),
            (3, |p| p.asked.dims[0] = 0),
            (4, |p| p.asked.factors[1] = f64::NAN),
            (MOVED_SINGLE, |p| p.asked.dims[0] = 1),
            (6, |p| p.asked.dims = [512, 513, 512]),
            (7, |p| p.off.input += 1),
            (7, |p| p.off.work -= 1),
            (8, |p| p.flaw = Some(f64::INFINITY)),
            (9, |p| {
                (p.asked.order, p.asked.factors) = (0, [0.0, 0.0, -0.5])
            }),
        ];
        for (number, spoil) in spoiled {
            let mut plan = sound(Entry::Shift);
            spoil(&mut plan);
            for at in [[0; 3], [usize::MAX; 3]] {
                assert_eq!(answer(&plan, &Alone::at(at)), number);
            }
        }
        let mut shrunk = sound(Entry::Zoom);
        shrunk.asked.factors[1] = 5e-324;
        assert_eq!(answer(&shrunk, &Alone::at([0; 3])), 5);
    }

    #[test]
    fn its_own_buffers() {
        for (values, codes) in [(0, 1), (2, 1), (1, 0), (1, 2)] {
            for at in [[0; 3], [9; 3]] {
                let alone = Alone { at, values, codes };
                assert_eq!(answer(&sound(Entry::Shift), &alone), 7);
            }
        }
        // the volume's own are not lent
        let mut plan = sound(Entry::Shift);
        (plan.off.output, plan.off.coverage, plan.off.counts) = (-1, 1, -4);
        assert_eq!(document::answer(&plan.request()), 7);
        assert_eq!(answer(&plan, &Alone::at([0; 3])), 0);
    }

    fn requests() -> Vec<Asked> {
        let volumes = [[2, 3, 4], [1, 3, 4], [2, 1, 1], [1, 1, 1]].into_iter();
        let each = |dims| single::tests::requests(&[Entry::Shift, Entry::Zoom], dims);
        volumes.flat_map(each).collect()
    }

    /// By the tables a voxel is what it is in the volume, over the coefficients of that.
    #[test]
    fn tables_give_the_volume() {
        for asked in requests() {
            let request = Plan::of(asked, 1).request();
            if document::answer(&request) != 0 {
                continue;
            }
            let volume = theirs::call(&asked, &request.input).unwrap();
            let source = if asked.needed() > 0 {
                &volume.coefficients
            } else {
                &request.input
            };
            for at in indices(volume.dims) {
                let (value, code) = theirs::voxel(&asked, source, at).unwrap();
                let (in_volume, its_code) = volume.voxel(at);
                assert_eq!(value.to_bits(), in_volume.to_bits());
                assert_eq!(code, its_code);
            }
        }
    }
}
