//! Memory of the module: that of std's allocator, and whether some was refused. Then a call traps,
//! and the worker says why.

use std::alloc::{GlobalAlloc, Layout, System};
use std::sync::atomic::{AtomicU32, Ordering};

#[global_allocator]
static MEMORY: Memory = Memory;

static REFUSED: AtomicU32 = AtomicU32::new(0);

struct Memory;

/// From this number of bytes on, a block may stay where it is when it grows.
const LARGE: usize = 1 << 20;

/// Has std's allocator ask for more memory, which it keeps at the end. The last block can grow
/// into it then, in place of being copied: the list of a run's entries is the greatest, and while
/// it was copied the page would have it one and a half times.
fn extend(size: usize) {
    let Ok(layout) = Layout::from_size_align(size, 8) else {
        return;
    };
    // SAFETY: the size isn't 0, and the block is given back at once.
    unsafe {
        let block = System.alloc(layout);
        if !block.is_null() {
            System.dealloc(block, layout);
        }
    }
}

fn noted(block: *mut u8) -> *mut u8 {
    if block.is_null() {
        REFUSED.fetch_add(1, Ordering::Relaxed);
    }
    block
}

// SAFETY: all is done by std's allocator.
unsafe impl GlobalAlloc for Memory {
    unsafe fn alloc(&self, layout: Layout) -> *mut u8 {
        // SAFETY: the caller's promise is the same.
        noted(unsafe { System.alloc(layout) })
    }

    unsafe fn alloc_zeroed(&self, layout: Layout) -> *mut u8 {
        // SAFETY: the caller's promise is the same.
        noted(unsafe { System.alloc_zeroed(layout) })
    }

    unsafe fn realloc(&self, block: *mut u8, layout: Layout, size: usize) -> *mut u8 {
        if layout.size() >= LARGE && size > layout.size() {
            extend(size - layout.size());
        }
        // SAFETY: the caller's promise is the same.
        noted(unsafe { System.realloc(block, layout, size) })
    }

    unsafe fn dealloc(&self, block: *mut u8, layout: Layout) {
        // SAFETY: the caller's promise is the same.
        unsafe { System.dealloc(block, layout) }
    }
}

/// How often memory was refused.
#[unsafe(no_mangle)]
pub extern "C" fn refused() -> u32 {
    REFUSED.load(Ordering::Relaxed)
}
