//! Calls of the Rust that may panic.

use std::cell::Cell;
use std::panic::{self, AssertUnwindSafe};

thread_local! {
    static IN_THE_RUST: Cell<bool> = const { Cell::new(false) };
}

/// Panics of the Rust are answers and print nothing; any other is a fault of this program.
pub fn keep_caught_panics_quiet() {
    let report = panic::take_hook();
    panic::set_hook(Box::new(move |info| {
        if !IN_THE_RUST.get() {
            report(info);
        }
    }));
}

/// What the call gives; `None` where it panics. One call may stand in another.
pub fn call<T>(call: impl FnOnce() -> T) -> Option<T> {
    let before = IN_THE_RUST.replace(true);
    let outcome = panic::catch_unwind(AssertUnwindSafe(call));
    IN_THE_RUST.set(before);
    outcome.ok()
}
