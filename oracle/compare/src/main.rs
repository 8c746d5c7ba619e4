//! `compare`: puts the same requests to the library and to the Rust, and compares every place of every
//! buffer bit for bit (oracle/run-compare); and holds whole coordinates of both to the SciPy manual
//! (oracle/run-whole).

mod alone;
mod drawn;
mod faults;
mod listed;
mod ours;
mod piped;
mod tally;
mod whole;

use std::process::ExitCode;
use std::str::FromStr;

use ours::{Library, Linked};
use requests::expected;
use requests::plan::Plan;
use shared::rust;
use tally::Tally;
use whole::Reach;

const USAGE: &str =
    "usage: compare linked CASES SEED | compare piped CASES SEED PROGRAM [WORD...] \
     | compare whole LIBRARY FOLD | compare faults";

/// The piped library is given one request in so many, and none with more places.
const ONE_IN: usize = 20;
const SMALL: usize = 30_000;

fn main() -> ExitCode {
    rust::keep_caught_panics_quiet();
    let words: Vec<String> = std::env::args().skip(1).collect();
    match run(&words) {
        Ok(summary) => {
            println!("{summary}");
            ExitCode::SUCCESS
        }
        Err(reason) => {
            eprintln!("compare: {reason}");
            ExitCode::FAILURE
        }
    }
}

fn run(words: &[String]) -> Result<String, String> {
    let command: Vec<&str> = words.iter().map(String::as_str).collect();
    match command[..] {
        ["linked", cases, seed] => compare(plans(cases, seed)?, &mut Linked),
        ["piped", cases, seed, _, ..] => {
            let small = |(_, plan): &(usize, Plan)| plan.places() <= SMALL;
            let some = plans(cases, seed)?.step_by(ONE_IN).filter(small);
            let mut door = piped::Door::open(&words[3..]).map_err(|error| error.to_string())?;
            compare(some, &mut door)
        }
        ["whole", library, fold] => whole::sweep(Reach {
            library: number(library)?,
            fold: number(fold)?,
        }),
        ["faults"] => {
            let count = faults::all_noticed()? + whole::planted::all_noticed()?;
            Ok(format!("planted faults: {count} of {count} noticed"))
        }
        _ => Err(USAGE.into()),
    }
}

/// The list, then as many cases as are asked for and a quarter as many with axes of length 1, each with its number.
fn plans(cases: &str, seed: &str) -> Result<impl Iterator<Item = (usize, Plan)>, String> {
    let (cases, seed) = (number(cases)?, number(seed)?);
    let drawn = (0..cases).map(move |number| drawn::plan(seed, number));
    let thin = (0..cases / 4).map(move |number| drawn::thin(seed, number));
    Ok(listed::plans()
        .into_iter()
        .chain(drawn)
        .chain(thin)
        .enumerate())
}

fn number<T: FromStr>(word: &str) -> Result<T, String> {
    let number = word.parse();
    number.map_err(|_| format!("{word} is no whole number; {USAGE}"))
}

/// A summary; or the first difference, with the request at which it appears.
fn compare(
    plans: impl Iterator<Item = (usize, Plan)>,
    library: &mut impl Library,
) -> Result<String, String> {
    let mut tally = Tally::default();
    for (number, plan) in plans {
        let compared = compare_one(&plan, number, library, &mut tally);
        let at = |difference| format!("case {number} differs: {difference}\n{}", plan.request());
        compared.map_err(at)?;
    }
    Ok(tally.to_string())
}

fn compare_one(
    plan: &Plan,
    number: usize,
    library: &mut impl Library,
    tally: &mut Tally,
) -> Result<(), String> {
    let request = plan.request();
    let outcome = library.call(&request)?;
    let expected = expected::outcome(&request)?;
    if let Some(difference) = outcome.difference(&expected) {
        return Err(difference);
    }
    tally.add(&request, &outcome);
    if request.asked.entry.resamples() {
        let seed = plan.seed ^ number as u64;
        alone::compare(&request, outcome, &expected, seed, library, tally)?;
    }
    Ok(())
}
