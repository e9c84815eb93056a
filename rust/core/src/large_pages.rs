//! How the system backs large blocks by memory. That affects speed, and how much memory is in use.
#![allow(unsafe_code)]

use std::cell::Cell;
use std::mem::MaybeUninit;
use std::sync::atomic::{AtomicBool, Ordering};

/// Asks the system to back room by large pages, so that the first write to each 4 KiB of it isn't a
/// page fault.
///
/// It changes no byte, and the system may not do it. Room smaller than a large page is left as it
/// is.
pub fn ask_for_large_pages<T>(room: &mut [MaybeUninit<T>]) {
    const LARGE_PAGE: usize = 2 << 20;
    const MADV_HUGEPAGE: i32 = 14;
    advise(room, LARGE_PAGE, MADV_HUGEPAGE);
}

/// Whether memory is given back to the system. It takes time, and an allocator gives back what it
/// likes. So a process does it that runs for weeks.
static GIVES_BACK: AtomicBool = AtomicBool::new(false);

/// Has memory given back from now on.
// The program `ttd` doesn't.
#[allow(dead_code)]
pub fn begin_to_give_back() {
    GIVES_BACK.store(true, Ordering::Relaxed);
}

thread_local! {
    /// Whether this thread leaves its memory to the allocator.
    static LEAVES: Cell<bool> = const { Cell::new(false) };
}

/// Runs this while its thread leaves memory to the allocator. That is quicker for a thread that
/// soon ends, and where further lists take the place of those that are dropped: their blocks keep
/// the memory, so that writing to them again isn't a page fault for each page.
#[allow(dead_code)]
pub fn without_giving_back<R>(run: impl FnOnce() -> R) -> R {
    let before = LEAVES.replace(true);
    let result = run();
    LEAVES.set(before);
    result
}

/// Whether this thread gives memory back.
pub fn gives_back() -> bool {
    GIVES_BACK.load(Ordering::Relaxed) && !LEAVES.get()
}

/// Gives back the memory of room in which nothing is, if memory is given back. What an earlier use
/// of its addresses has written is gone, and what isn't written again takes no memory.
pub fn give_back_pages<T>(room: &mut [MaybeUninit<T>]) {
    const MADV_DONTNEED: i32 = 4;
    if gives_back() {
        advise(room, page_size(), MADV_DONTNEED);
    }
}

#[cfg(all(target_os = "linux", not(miri)))]
fn page_size() -> usize {
    unsafe extern "C" {
        safe fn getpagesize() -> i32;
    }
    getpagesize() as usize
}

/// Gives the system an advice about the whole pages of room, which have this size.
#[cfg(all(target_os = "linux", not(miri)))]
fn advise<T>(room: &mut [MaybeUninit<T>], page: usize, advice: i32) {
    unsafe extern "C" {
        fn madvise(addr: *mut u8, len: usize, advice: i32) -> i32;
    }
    let start: *mut u8 = room.as_mut_ptr().cast();
    let skip = start.align_offset(page);
    let len = size_of_val(room).saturating_sub(skip) & !(page - 1);
    if len > 0 {
        // SAFETY: the range lies within `room`, in which nothing is.
        unsafe { madvise(start.wrapping_add(skip), len, advice) };
    }
}

#[cfg(not(all(target_os = "linux", not(miri))))]
fn page_size() -> usize {
    1
}

#[cfg(not(all(target_os = "linux", not(miri))))]
fn advise<T>(_: &mut [MaybeUninit<T>], _: usize, _: i32) {}
