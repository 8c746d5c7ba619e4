//! Requests, and what a call must leave for each: documents 01 and 02 say which answer, the Rust which
//! values. Nothing here needs the library.

pub mod alone;
pub mod document;
pub mod expected;
pub mod lent;
pub mod outcome;
pub mod plan;
mod replicate;
pub mod request;
pub mod single;
pub mod spoils;
pub mod theirs;
