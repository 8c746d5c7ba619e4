//! What the oracle's programs share: calls that may panic, numbers from a seed, and files of words.

pub mod rust;
mod seeded;
mod words;

pub use seeded::Seeded;
pub use words::Words;
