//! One call, put to each side: to the library through its Rust crate, to the Rust's own sources
//! over the oracle's containers, and to SciPy if it is there.

mod call;
mod clock;
mod ours;
mod scipy;
mod theirs;

pub use call::{Call, Entry};
pub use clock::timed;
pub use ours::Lent;
pub use scipy::SciPy;
pub use theirs::voxels_of;
