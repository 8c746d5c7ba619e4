//! `oracle`: puts requests to the Rust and prints its bits. README.md describes the requests.

mod answer;
mod constants;
mod fields;
mod kinds;
mod powers;
mod voxels;

use std::fs::File;
use std::io::{self, BufRead, BufReader, BufWriter, Write};
use std::process::ExitCode;

use answer::Style;
use shared::rust;

const USAGE: &str = "usage: oracle ask [FILE] | oracle constants | oracle powi";

fn main() -> ExitCode {
    rust::keep_caught_panics_quiet();
    match run() {
        Ok(()) => ExitCode::SUCCESS,
        Err(reason) => {
            eprintln!("oracle: {reason}");
            ExitCode::from(2)
        }
    }
}

fn run() -> Result<(), String> {
    let arguments: Vec<String> = std::env::args().skip(1).collect();
    let arguments: Vec<&str> = arguments.iter().map(String::as_str).collect();
    match arguments[..] {
        ["ask"] => answer_all(io::stdin().lock()),
        ["ask", path] => {
            let file = File::open(path).map_err(|error| format!("{path}: {error}"))?;
            answer_all(BufReader::new(file))
        }
        ["constants"] => {
            constants::print_all();
            Ok(())
        }
        ["powi"] => {
            powers::print_comparison();
            Ok(())
        }
        _ => Err(USAGE.into()),
    }
}

/// One answer line for each request line. Remarks and empty lines are handed through, so that a
/// list of answers reads like the list of requests.
fn answer_all(requests: impl BufRead) -> Result<(), String> {
    let mut out = BufWriter::new(io::stdout().lock());
    let mut style = Style::Bits;
    for (number, line) in requests.lines().enumerate() {
        let at_line = |reason: String| format!("line {}: {reason}", number + 1);
        let line = line.map_err(|error| at_line(error.to_string()))?;
        let text = match line.trim() {
            "print bits" => {
                style = Style::Bits;
                continue;
            }
            "print decimal" => {
                style = Style::Decimal;
                continue;
            }
            remark if remark.is_empty() || remark.starts_with('#') => remark.into(),
            request => kinds::answer(request, style).map_err(at_line)?,
        };
        writeln!(out, "{text}").map_err(|error| error.to_string())?;
    }
    out.flush().map_err(|error| error.to_string())
}
