//! How long a task takes.

use std::time::{Duration, Instant};

/// Does the task once: its time and its result.
pub fn timed<T>(task: impl FnOnce() -> T) -> (Duration, T) {
    let began = Instant::now();
    let result = task();
    (began.elapsed(), result)
}
