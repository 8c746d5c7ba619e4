//! Memory of a call, the input aside: what the library is lent, which is all that it writes but its
//! stack, and the most that the Rust holds of its own at any time.

use std::alloc::{GlobalAlloc, Layout, System};
use std::sync::atomic::{AtomicUsize, Ordering::Relaxed};

use bench::{Call, Entry, Lent};
use ndarray_ndimage::BorderMode::{Mirror, Nearest};

/// The system's memory, with the bytes in use counted.
struct Counted;

static IN_USE: AtomicUsize = AtomicUsize::new(0);
static MOST: AtomicUsize = AtomicUsize::new(0);

// SAFETY: every call is handed on to the system's allocator.
unsafe impl GlobalAlloc for Counted {
    unsafe fn alloc(&self, layout: Layout) -> *mut u8 {
        let before = IN_USE.fetch_add(layout.size(), Relaxed);
        MOST.fetch_max(before + layout.size(), Relaxed);
        System.alloc(layout)
    }

    unsafe fn dealloc(&self, place: *mut u8, layout: Layout) {
        IN_USE.fetch_sub(layout.size(), Relaxed);
        System.dealloc(place, layout);
    }
}

#[global_allocator]
static MEMORY: Counted = Counted;

fn main() {
    let side = 96;
    println!("\nShift, order 5, {side}^3: bytes beside the input");
    println!("                         lent to us    the Rust's own");
    for (name, mode, prefilter) in [
        ("Mirror", Mirror, false),
        ("Mirror, prefilter", Mirror, true),
        ("Nearest, prefilter", Nearest, true),
    ] {
        let call = Call {
            entry: Entry::Shift,
            side,
            order: 5,
            mode,
            prefilter,
        };
        let data = call.volume();
        let before = IN_USE.load(Relaxed);
        MOST.store(before, Relaxed);
        call.rust(&data);
        let rust = MOST.load(Relaxed) - before;
        println!("{name:20}{:15}{rust:18}", Lent::new(&call).bytes());
    }
}
