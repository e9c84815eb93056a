//! Whether a thread asks for memory as the proved source does, which takes a refusal as an error,
//! or as Rust's own library and crates do, which can't go on without.

use std::cell::Cell;

thread_local! {
    static TAKES_REFUSALS: Cell<bool> = const { Cell::new(false) };
}

/// Calls a function that takes refusals.
pub(crate) fn taking_refusals<T>(call: impl FnOnce() -> T) -> T {
    with(true, call)
}

/// Calls a function of Rust's own library or of a crate that takes none.
pub(crate) fn without_refusals<T>(call: impl FnOnce() -> T) -> T {
    with(false, call)
}

fn with<T>(takes: bool, call: impl FnOnce() -> T) -> T {
    let before = TAKES_REFUSALS.replace(takes);
    let result = call();
    TAKES_REFUSALS.set(before);
    result
}

/// Whether this thread takes refusals. One that ends has nothing here any more, and makes no calls
/// of the source's.
// The page and tests of the source don't ask.
#[allow(dead_code)]
pub(crate) fn takes_refusals() -> bool {
    TAKES_REFUSALS.try_with(Cell::get).unwrap_or(false)
}
