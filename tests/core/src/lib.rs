//! What the tests of the proved crates share.

pub mod desks;
pub mod devices;
pub mod fixtures;
mod random;

pub use random::Random;
use std::sync::mpsc::{self, RecvTimeoutError};
use std::time::Duration;
use std::{env, panic, thread};

/// Runs two closures side by side, the first in a thread of its own, and returns what both return.
pub fn side_by_side<A: Send, B>(one: impl FnOnce() -> A + Send, two: impl FnOnce() -> B) -> (A, B) {
    thread::scope(|scope| {
        let one = scope.spawn(one);
        let two = two();
        (one.join().unwrap(), two)
    })
}

/// After how long a wait counts as one without an end. Where the machine has much else to do, what takes a second takes a minute.
const LIMIT: Duration = Duration::from_secs(1200);

/// Runs something that a fault may make wait forever, in a thread of its own. Returns its result, or panics after the limit.
pub fn in_time<R: Send + 'static>(act: impl FnOnce() -> R + Send + 'static) -> R {
    let (over, is_over) = mpsc::channel::<()>();
    let thread = thread::spawn(move || {
        let _over = over;
        act()
    });
    let waited = is_over.recv_timeout(LIMIT);
    assert_ne!(
        waited,
        Err(RecvTimeoutError::Timeout),
        "a wait does not end"
    );
    thread
        .join()
        .unwrap_or_else(|panicked| panic::resume_unwind(panicked))
}

/// How much of each workload a bench does: what its first number says, or `few` as a test and `many` else.
pub fn asked(few: u64, many: u64) -> u64 {
    asked_at(0, few, many)
}

/// What the number at this place says.
pub fn asked_at(place: usize, few: u64, many: u64) -> u64 {
    let default = if env::args().any(|word| word == "--bench") {
        many
    } else {
        few
    };
    let mut numbers = env::args().skip(1).filter_map(|word| word.parse().ok());
    numbers.nth(place).unwrap_or(default)
}
