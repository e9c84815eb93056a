//! How many entries and handles of runs were read, so that tests can say how that grows.

use std::cell::Cell;

thread_local! {
    static STEPS: Cell<u64> = const { Cell::new(0) };
}

/// Counts so many more on this thread.
pub fn add(count: usize) {
    STEPS.set(STEPS.get() + count as u64);
}

/// Returns what this reads.
pub fn of<T>(read: impl FnOnce() -> T) -> (T, u64) {
    let before = STEPS.get();
    let result = read();
    (result, STEPS.get() - before)
}
