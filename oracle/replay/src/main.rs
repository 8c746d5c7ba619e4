//! `replay FILE`: puts a fixed sample of requests to the Rust and writes the calls with its answers
//! for `crates/replay` to repeat. crates/recorded/README.md has the layout of the file.

mod departures;
mod limits;
mod promises;
mod record;
mod sample;

use std::process::ExitCode;

use record::Recording;
use shared::{rust, Words};

fn main() -> ExitCode {
    rust::keep_caught_panics_quiet();
    let arguments: Vec<String> = std::env::args().skip(1).collect();
    let [path] = &arguments[..] else {
        eprintln!("usage: replay FILE");
        return ExitCode::from(2);
    };
    let written = answers()
        .and_then(|file| std::fs::write(path, file.bytes()).map_err(|e| format!("{path}: {e}")));
    match written {
        Ok(()) => ExitCode::SUCCESS,
        Err(reason) => {
            eprintln!("replay: {reason}");
            ExitCode::FAILURE
        }
    }
}

fn answers() -> Result<Words, String> {
    let mut recording = Recording::default();
    let mut answered = Vec::new();
    let parts = [sample::plans(), limits::plans(), departures::plans()];
    for plan in parts.into_iter().flatten() {
        answered.push(recording.add(&record::request(&plan))?);
    }
    promises::check(&answered)?;
    recording.file()
}
