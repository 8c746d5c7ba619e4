//! How an answer is written: words, whole numbers and floats on one line.

use std::fmt::{Display, Write};

/// How floats are written.
#[derive(Clone, Copy)]
pub enum Style {
    /// The 16 hexadecimal digits of the bits.
    Bits,
    /// The shortest decimal that reads back as the same float.
    Decimal,
}

/// One line in the making.
pub struct Answer {
    style: Style,
    line: String,
}

impl Answer {
    pub fn new(style: Style) -> Answer {
        let line = String::new();
        Answer { style, line }
    }

    pub fn into_line(self) -> String {
        self.line
    }

    pub fn word(&mut self, word: impl Display) -> &mut Answer {
        let gap = if self.line.is_empty() { "" } else { " " };
        write!(self.line, "{gap}{word}").expect("a string takes any text");
        self
    }

    pub fn wholes(&mut self, numbers: &[impl Display]) -> &mut Answer {
        for number in numbers {
            self.word(number);
        }
        self
    }

    pub fn floats(&mut self, floats: &[f64]) -> &mut Answer {
        for float in floats {
            match self.style {
                Style::Bits => self.word(format_args!("{:016x}", float.to_bits())),
                Style::Decimal => self.word(format_args!("{float:?}")),
            };
        }
        self
    }
}
