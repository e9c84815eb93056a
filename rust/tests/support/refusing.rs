//! An allocator that refuses requests of one thread, or one request of all others, while a closure
//! runs.
//!
//! A program that uses it says `#[global_allocator] static ALLOCATOR: Refusing = Refusing;`.
#![allow(dead_code)]

use std::alloc::{GlobalAlloc, Layout, System};
use std::cell::Cell;
use std::ptr;
use std::sync::atomic::{AtomicU64, AtomicUsize, Ordering};

/// The requests that are refused.
#[derive(Clone, Copy, Debug)]
pub struct Refusal {
    /// Only requests of at least this many bytes are counted.
    pub least: usize,
    /// How many of these are allowed first.
    pub allowed: u64,
    /// How many are refused then. Those after them are allowed.
    pub refused: u64,
}

impl Refusal {
    /// Refuses one request, after this many.
    pub fn only(allowed: u64) -> Refusal {
        Refusal {
            least: 0,
            allowed,
            refused: 1,
        }
    }

    /// Refuses all requests after this many.
    pub fn after(allowed: u64) -> Refusal {
        Refusal {
            refused: u64::MAX,
            ..Refusal::only(allowed)
        }
    }

    /// Refuses all requests of at least this many bytes.
    pub fn above(least: usize) -> Refusal {
        Refusal {
            least,
            allowed: 0,
            refused: u64::MAX,
        }
    }
}

/// What is refused of a thread while a closure runs, on the stack of which it is.
struct Refused {
    refusal: Cell<Refusal>,
    // How many requests were refused.
    count: Cell<u64>,
}

/// Where the thread has what is refused of it. It is null where nothing is.
#[cfg(not(windows))]
mod of_thread {
    use super::Refused;
    use std::cell::Cell;
    use std::ptr;

    thread_local! {
        static REFUSED: Cell<*const Refused> = const { Cell::new(ptr::null()) };
    }

    pub fn get() -> *const Refused {
        REFUSED.get()
    }

    pub fn set(refused: *const Refused) {
        REFUSED.set(refused);
    }
}

/// The same by the system's own slots: where mingw links, a variable of a thread allocates as it is
/// first used, and so would be asked for by the allocator that asks for it.
#[cfg(windows)]
mod of_thread {
    use super::Refused;
    use std::ffi::c_void;
    use std::ptr;
    use std::sync::OnceLock;

    #[link(name = "kernel32")]
    unsafe extern "system" {
        fn TlsAlloc() -> u32;
        fn TlsGetValue(slot: u32) -> *const c_void;
        fn TlsSetValue(slot: u32, to: *const c_void) -> i32;
    }

    static SLOT: OnceLock<u32> = OnceLock::new();

    pub fn get() -> *const Refused {
        let Some(slot) = SLOT.get() else {
            return ptr::null();
        };
        // SAFETY: it is a slot that the system has given out.
        unsafe { TlsGetValue(*slot) }.cast()
    }

    pub fn set(refused: *const Refused) {
        // SAFETY: the system is asked for a slot.
        let slot = *SLOT.get_or_init(|| unsafe { TlsAlloc() });
        // SAFETY: it refuses what isn't one.
        assert_ne!(unsafe { TlsSetValue(slot, refused.cast()) }, 0, "no slot");
    }
}

/// Puts back what was refused of this thread before.
struct Restore(*const Refused);

impl Drop for Restore {
    fn drop(&mut self) {
        of_thread::set(self.0);
    }
}

/// Runs a closure, and refuses these requests of this thread in it. Returns also how many were
/// refused.
pub fn refusing<T>(refusal: Refusal, run: impl FnOnce() -> T) -> (T, u64) {
    let refused = Refused {
        refusal: Cell::new(refusal),
        count: Cell::new(0),
    };
    let restore = Restore(of_thread::get());
    of_thread::set(&refused);
    let result = run();
    drop(restore);
    (result, refused.count.get())
}

// How many bytes a request of another thread has at least, to be counted.
static LEAST: AtomicUsize = AtomicUsize::new(usize::MAX);
// How many of these were counted, which one of them is refused, and how many were.
static COUNTED: AtomicU64 = AtomicU64::new(0);
static WHICH: AtomicU64 = AtomicU64::new(0);
static REFUSED_OF_OTHERS: AtomicU64 = AtomicU64::new(0);

/// Runs a closure, and refuses one request of the threads that aren't this one: of those that have
/// at least `least` bytes, the one after `allowed` others. Returns also how many were refused.
pub fn refusing_others<T>(least: usize, allowed: u64, run: impl FnOnce() -> T) -> (T, u64) {
    paused(|| {
        COUNTED.store(0, Ordering::SeqCst);
        WHICH.store(allowed, Ordering::SeqCst);
        REFUSED_OF_OTHERS.store(0, Ordering::SeqCst);
        LEAST.store(least, Ordering::SeqCst);
        let result = run();
        LEAST.store(usize::MAX, Ordering::SeqCst);
        (result, REFUSED_OF_OTHERS.load(Ordering::SeqCst))
    })
}

/// Whether a request of this many bytes is refused, since another thread refuses it.
fn is_refused_by_one(size: usize) -> bool {
    if size < LEAST.load(Ordering::SeqCst) {
        return false;
    }
    let is_it = COUNTED.fetch_add(1, Ordering::SeqCst) == WHICH.load(Ordering::SeqCst);
    REFUSED_OF_OTHERS.fetch_add(u64::from(is_it), Ordering::SeqCst);
    is_it
}

/// Runs a closure whose requests are neither counted nor refused.
pub fn paused<T>(run: impl FnOnce() -> T) -> T {
    refusing(Refusal::above(usize::MAX), run).0
}

impl Refused {
    /// Whether a request of this many bytes is refused. It counts.
    fn takes(&self, size: usize) -> bool {
        let mut refusal = self.refusal.get();
        if size < refusal.least {
            return false;
        }
        let is_refused = refusal.allowed == 0 && refusal.refused > 0;
        if is_refused {
            refusal.refused -= 1;
            self.count.set(self.count.get() + 1);
        } else {
            refusal.allowed = refusal.allowed.saturating_sub(1);
        }
        self.refusal.set(refusal);
        is_refused
    }
}

/// Whether a request of this many bytes is refused.
fn is_refused(size: usize) -> bool {
    // SAFETY: it is on the stack of this thread, below the closure that runs.
    match unsafe { of_thread::get().as_ref() } {
        Some(refused) => refused.takes(size),
        None => is_refused_by_one(size),
    }
}

/// The system's allocator, which refuses what it is told to.
pub struct Refusing;

// SAFETY: each call is passed on to the system's allocator, or refused by a null pointer, and then
// the block stays as it was.
unsafe impl GlobalAlloc for Refusing {
    unsafe fn alloc(&self, layout: Layout) -> *mut u8 {
        if is_refused(layout.size()) {
            return ptr::null_mut();
        }
        // SAFETY: the caller upholds what `alloc` requires.
        unsafe { System.alloc(layout) }
    }

    unsafe fn alloc_zeroed(&self, layout: Layout) -> *mut u8 {
        if is_refused(layout.size()) {
            return ptr::null_mut();
        }
        // SAFETY: the caller upholds what `alloc_zeroed` requires.
        unsafe { System.alloc_zeroed(layout) }
    }

    unsafe fn realloc(&self, block: *mut u8, layout: Layout, size: usize) -> *mut u8 {
        if is_refused(size) {
            return ptr::null_mut();
        }
        // SAFETY: the caller upholds what `realloc` requires.
        unsafe { System.realloc(block, layout, size) }
    }

    unsafe fn dealloc(&self, block: *mut u8, layout: Layout) {
        // SAFETY: the caller upholds what `dealloc` requires.
        unsafe { System.dealloc(block, layout) }
    }
}
