//! What happens where memory is refused to Rust's own library, or to a crate: the process ends as
//! the program does where it says that there is none.
//!
//! Rust would abort, with a line of its own and, by its version, more.
#![allow(unsafe_code)]

use crate::refused::takes_refusals;
use std::alloc::{GlobalAlloc, Layout, System};
use std::io::Write;

/// The exit status of the program without memory.
#[cfg(any(unix, windows))]
const NO_MEMORY: i32 = 5;

/// The system's allocator. Where it refuses memory to what takes no refusal, the process ends.
#[derive(Debug)]
pub struct Ending;

/// Ends the process at once: what ends it as usual would wait for a stream whose buffer was
/// refused.
#[cfg(any(unix, windows))]
fn end() -> ! {
    unsafe extern "C" {
        safe fn _exit(status: i32) -> !;
    }
    _exit(NO_MEMORY)
}

#[cfg(not(any(unix, windows)))]
fn end() -> ! {
    std::process::abort()
}

impl Ending {
    fn checked(block: *mut u8) -> *mut u8 {
        if block.is_null() && !takes_refusals() {
            // Nothing is allocated for it. Where it can't be written, the status says it alone.
            let _ = std::io::stderr().write_all(b"no memory\n");
            end();
        }
        block
    }
}

// SAFETY: each function is the system's allocator's, which keeps what is promised, or doesn't
// return.
unsafe impl GlobalAlloc for Ending {
    unsafe fn alloc(&self, layout: Layout) -> *mut u8 {
        // SAFETY: the caller keeps what is required.
        Ending::checked(unsafe { System.alloc(layout) })
    }

    unsafe fn alloc_zeroed(&self, layout: Layout) -> *mut u8 {
        // SAFETY: as above.
        Ending::checked(unsafe { System.alloc_zeroed(layout) })
    }

    unsafe fn realloc(&self, block: *mut u8, layout: Layout, size: usize) -> *mut u8 {
        // SAFETY: as above.
        Ending::checked(unsafe { System.realloc(block, layout, size) })
    }

    unsafe fn dealloc(&self, block: *mut u8, layout: Layout) {
        // SAFETY: as above.
        unsafe { System.dealloc(block, layout) }
    }
}
