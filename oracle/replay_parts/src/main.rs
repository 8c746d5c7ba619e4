//! `replay_parts FILE`: asks the Rust for roundings, lengths, folds, weights, records, filtered lanes and
//! volumes and padded volumes, and writes its answers for `crates/replay_parts` to replay.
//! crates/replay_parts/README.md has the layout of the file.

mod axes;
mod lanes;
mod numbers;

use std::process::ExitCode;

use shared::Words;

fn main() -> ExitCode {
    let arguments: Vec<String> = std::env::args().skip(1).collect();
    let [path] = &arguments[..] else {
        eprintln!("usage: replay_parts FILE");
        return ExitCode::from(2);
    };
    match std::fs::write(path, answers().bytes()) {
        Ok(()) => ExitCode::SUCCESS,
        Err(error) => {
            eprintln!("replay_parts: {path}: {error}");
            ExitCode::from(1)
        }
    }
}

/// The pool, and the sections in the order in which they are replayed.
fn answers() -> Words {
    let pool = numbers::pool();
    let mut file = Words::new();
    file.whole(pool.len());
    file.floats(&pool);
    let sections = [
        numbers::roundings(),
        axes::lengths(),
        axes::folds(),
        axes::weights(),
        axes::records(),
        lanes::lanes(&pool),
        lanes::volumes(&pool),
        lanes::pads(&pool),
    ];
    for cases in sections {
        file.section(&cases);
    }
    file
}
