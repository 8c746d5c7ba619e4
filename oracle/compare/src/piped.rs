//! The library in another process: door.c, a C program that calls the archive and is spoken to in
//! numbers of eight bytes and the raw bytes of the buffers.

use std::io::{self, BufReader, BufWriter, Read, Write};
use std::process::{Child, ChildStdin, ChildStdout, Command, Stdio};

use requests::alone::Left;
use requests::lent::{Lent, GUARD};
use requests::outcome::Outcome;
use requests::request::{Asked, Entry, Request, ENTRIES};

use crate::ours::Library;

pub struct Door {
    to: BufWriter<ChildStdin>,
    from: BufReader<ChildStdout>,
    _process: Child,
}

impl Door {
    /// Starts the program, whose name and words these are.
    pub fn open(program: &[String]) -> io::Result<Door> {
        let [name, words @ ..] = program else {
            return Err(io::Error::other("no program is named"));
        };
        let mut process = Command::new(name)
            .args(words)
            .stdin(Stdio::piped())
            .stdout(Stdio::piped())
            .spawn()?;
        let (to, from) = (process.stdin.take(), process.stdout.take());
        Ok(Door {
            to: BufWriter::new(to.expect("a pipe to the program")),
            from: BufReader::new(from.expect("a pipe from the program")),
            _process: process,
        })
    }

    /// Makes a call of the function with this number (door.c); what it answers is left in `lent`, and these
    /// are its numbers.
    fn ask(
        &mut self,
        function: usize,
        asked: &Asked,
        at: [usize; 3],
        lent: &mut Lent,
    ) -> io::Result<[u64; 5]> {
        self.write_request(function, asked, at, lent)?;
        self.to.flush()?;
        let mut numbers = [0; 5];
        self.read_words(&mut numbers)?;
        self.read_words(lent.input.whole_mut())?;
        self.read_words(lent.output.whole_mut())?;
        self.from.read_exact(lent.coverage.whole_mut())?;
        self.read_words(lent.work.whole_mut())?;
        self.read_words(lent.counts.whole_mut())?;
        Ok(numbers)
    }

    fn write_request(
        &mut self,
        function: usize,
        asked: &Asked,
        at: [usize; 3],
        lent: &Lent,
    ) -> io::Result<()> {
        self.write_words(&[function as u64])?;
        self.write_words(&asked.dims.map(|length| length as u64))?;
        self.write_words(&asked.factors.map(f64::to_bits))?;
        self.write_words(&[
            asked.order as u64,
            asked.axis as u64,
            asked.prefilter.into(),
            asked.mode.into(),
            asked.fill.to_bits(),
        ])?;
        self.write_words(&at.map(|index| index as u64))?;
        self.write_words(&[
            GUARD as u64,
            lent.input.length() as u64,
            lent.output.length() as u64,
            lent.coverage.length() as u64,
            lent.work.length() as u64,
            lent.counts.length() as u64,
        ])?;
        self.write_words(lent.input.whole())?;
        self.write_words(lent.output.whole())?;
        self.to.write_all(lent.coverage.whole())?;
        self.write_words(lent.work.whole())?;
        self.write_words(lent.counts.whole())
    }

    fn write_words(&mut self, words: &[u64]) -> io::Result<()> {
        words
            .iter()
            .try_for_each(|word| self.to.write_all(&word.to_le_bytes()))
    }

    fn read_words(&mut self, words: &mut [u64]) -> io::Result<()> {
        for word in words {
            let mut bytes = [0; 8];
            self.from.read_exact(&mut bytes)?;
            *word = u64::from_le_bytes(bytes);
        }
        Ok(())
    }
}

impl Library for Door {
    fn call(&mut self, request: &Request) -> Result<Outcome, String> {
        let mut lent = Lent::new(request);
        let asked = &request.asked;
        let numbers = self.ask(asked.entry as usize, asked, [0; 3], &mut lent);
        let [status, z0, z1, z2, work_count] = numbers.map_err(|error| error.to_string())?;
        Ok(Outcome {
            status: status as u32,
            zoom_lengths: [z0, z1, z2].map(|length| length as usize),
            work_count: work_count as usize,
            lent,
        })
    }

    fn voxel(&mut self, asked: &Asked, at: [usize; 3], left: &mut Left) -> Result<(), String> {
        let function = ENTRIES.len() + usize::from(asked.entry == Entry::Zoom);
        let numbers = self.ask(function, asked, at, &mut left.lent);
        let [status, ..] = numbers.map_err(|error| error.to_string())?;
        left.status = status as u32;
        Ok(())
    }
}
