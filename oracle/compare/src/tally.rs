//! What was compared, counted for the summary.

use std::fmt;

use requests::alone::Left;
use requests::document::CODES;
use requests::outcome::Outcome;
use requests::request::{Asked, Request, ENTRIES};
use requests::single;

const ANSWERS: [u32; 13] = [0, 1, 2, 3, 4, 5, 6, 7, 8, 9, 11, 12, 255];

/// How many calls had each answer.
type Answers = [usize; ANSWERS.len()];

#[derive(Default)]
pub struct Tally {
    cases: [Answers; ENTRIES.len()],
    voxels: usize,
    codes: [u64; CODES],
    work: usize,
    thin: Thin,
    alone: Alone,
}

/// Cases with axes of length 1: those that succeeded by how many there are, and the others; thereof those held
/// to the Rust's answer with two slices, and voxels asked for alone.
#[derive(Default)]
struct Thin {
    done: [usize; 3],
    refused: usize,
    judged: usize,
    alone: usize,
}

/// Voxels that were asked for alone, of shifts and of zooms: their answers and codes, and what they were held to.
#[derive(Default)]
struct Alone {
    cases: [Answers; 2],
    in_volume: usize,
    by_tables: usize,
    codes: [u64; CODES],
}

impl Tally {
    /// Counts a case whose outcome was as expected.
    pub fn add(&mut self, request: &Request, outcome: &Outcome) {
        let asked = &request.asked;
        count(&mut self.cases[asked.entry as usize], outcome.status);
        self.thin.add(asked, outcome.status);
        if outcome.status == 0 {
            self.voxels += outcome.lent.output.length();
            self.work += asked.needed();
            if asked.entry.resamples() {
                for (sum, count) in self.codes.iter_mut().zip(outcome.lent.counts.lent()) {
                    *sum += *count;
                }
            }
        }
    }

    /// Counts one voxel that was as expected: as in the Rust's volume, or as by its tables.
    pub fn add_alone(&mut self, asked: &Asked, left: &Left, in_volume: bool) {
        let alone = &mut self.alone;
        count(&mut alone.cases[asked.entry as usize], left.status);
        if left.status == 0 {
            self.thin.alone += usize::from(asked.has_single());
            alone.codes[usize::from(left.lent.coverage.lent()[0])] += 1;
            if in_volume {
                alone.in_volume += 1;
            } else {
                alone.by_tables += 1;
            }
        }
    }
}

impl Thin {
    fn add(&mut self, asked: &Asked, status: u32) {
        let axes = (0..3).filter(|axis| asked.is_single(*axis)).count();
        match (axes, status) {
            (0, _) => {}
            (axes, 0) => {
                self.done[axes - 1] += 1;
                self.judged += usize::from(single::is_judged(asked));
            }
            _ => self.refused += 1,
        }
    }
}

fn count(answers: &mut Answers, status: u32) {
    let answer = ANSWERS.iter().position(|n| *n == status);
    answers[answer.expect("a number of the list")] += 1;
}

fn total(cases: &[Answers]) -> usize {
    cases.iter().flatten().sum()
}

/// How many there are, and of which code.
fn of_codes(codes: &[u64; CODES]) -> String {
    let [computed, filled, defaulted, folded] = codes;
    let sum: u64 = codes.iter().sum();
    format!("{sum} codes ({computed} of 0, {filled} of 1, {defaulted} of 2, {folded} of 3)")
}

impl fmt::Display for Tally {
    fn fmt(&self, f: &mut fmt::Formatter) -> fmt::Result {
        write!(f, "{:16}", "answer")?;
        for answer in ANSWERS {
            write!(f, "{answer:>8}")?;
        }
        let entries = ENTRIES.iter().map(|entry| entry.name());
        let rows = entries.zip(self.cases);
        let voxel_rows = ["shift_voxel", "zoom_voxel"]
            .into_iter()
            .zip(self.alone.cases);
        for (name, answers) in rows.chain(voxel_rows) {
            write!(f, "\n{name:16}")?;
            for count in answers {
                write!(f, "{count:8}")?;
            }
        }
        write!(
            f,
            "\n{} cases: {} voxels, {}, {} places of work; 0 differ",
            total(&self.cases),
            self.voxels,
            of_codes(&self.codes),
            self.work
        )?;
        let Thin {
            done: [one, two, three],
            refused,
            judged,
            alone,
        } = self.thin;
        write!(
            f,
            "\n{} of them with an axis of length 1 ({one}), two ({two}) or three ({three}), or refused ({refused}): \
             {judged} held to the Rust's first of two slices too, {alone} voxels alone",
            one + two + three + refused,
        )?;
        let alone = &self.alone;
        write!(
            f,
            "\n{} voxels asked for alone: {} held to the Rust's volume, {} to its tables, {}; 0 differ",
            total(&alone.cases),
            alone.in_volume,
            alone.by_tables,
            of_codes(&alone.codes)
        )
    }
}
