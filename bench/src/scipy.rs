//! SciPy, as a program of its own that makes a call whenever it is told to.

use std::io::{BufRead, BufReader, Write};
use std::process::{Child, ChildStdin, ChildStdout, Command, Stdio};
use std::time::Duration;

use crate::call::{Call, Entry};

/// Where a Python with SciPy may be found: that of the path, and the system's own.
const PYTHONS: [&str; 2] = ["python3", "/usr/bin/python3"];

pub struct SciPy {
    program: Child,
    to: ChildStdin,
    from: BufReader<ChildStdout>,
    pub version: String,
}

impl SciPy {
    /// SciPy, if it is there.
    pub fn open() -> Option<SciPy> {
        PYTHONS.into_iter().find_map(SciPy::of)
    }

    fn of(python: &str) -> Option<SciPy> {
        let mut program = Command::new(python)
            .arg(concat!(env!("CARGO_MANIFEST_DIR"), "/scipy_turns.py"))
            .stdin(Stdio::piped())
            .stdout(Stdio::piped())
            .stderr(Stdio::null())
            .spawn()
            .ok()?;
        let to = program.stdin.take()?;
        let from = BufReader::new(program.stdout.take()?);
        let mut scipy = SciPy {
            program,
            to,
            from,
            version: String::new(),
        };
        scipy.version = scipy.answer()?;
        Some(scipy)
    }

    fn answer(&mut self) -> Option<String> {
        let mut line = String::new();
        self.from
            .read_line(&mut line)
            .ok()
            .filter(|&read| read > 0)?;
        Some(line.trim().to_string())
    }

    /// The call that the turns after it make.
    pub fn prepare(&mut self, call: &Call) {
        let entry = match call.entry {
            Entry::Shift => "shift",
            Entry::Zoom => "zoom",
        };
        let mode = format!("{:?}", call.mode).to_lowercase();
        let [f0, f1, f2] = call.factors();
        let prefilter = u32::from(call.prefilter);
        self.say(&format!(
            "{entry} {} {} {mode} {prefilter} {f0} {f1} {f2}",
            call.side, call.order
        ));
    }

    /// Makes the call once: how long it took.
    pub fn turn(&mut self) -> Duration {
        self.say("turn");
        let seconds = self.answer().and_then(|line| line.parse().ok());
        Duration::from_secs_f64(seconds.expect("SciPy answers with a time"))
    }

    fn say(&mut self, line: &str) {
        writeln!(self.to, "{line}").expect("SciPy listens");
    }
}

impl Drop for SciPy {
    fn drop(&mut self) {
        // The program ends with its input; if it does not, nothing is lost by ending it.
        let _ = self.program.kill();
        let _ = self.program.wait();
    }
}
