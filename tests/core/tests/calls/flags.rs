//! What a thread of a test waits for: a flag, or that another thread waits on a channel.

use proved::RT;
use proved::rw_desk::Desk;
use std::sync::atomic::{AtomicBool, Ordering};
use std::thread::yield_now;
use std::time::{Duration, Instant};

/// How long it is looked for. It only ends what hangs: where the machine has much else to do, the other thread may get no turn for seconds.
const LIMIT: Duration = Duration::from_secs(120);

/// Waits until something is so, but no longer than the limit. Says whether it was.
fn is_so_in_time(is_so: impl Fn() -> bool) -> bool {
    let begun = Instant::now();
    while begun.elapsed() < LIMIT {
        if is_so() {
            return true;
        }
        yield_now();
    }
    is_so()
}

/// Waits until a flag is set, but no longer than the limit. Says whether it was.
pub fn is_set_in_time(flag: &AtomicBool) -> bool {
    is_so_in_time(|| flag.load(Ordering::SeqCst))
}

/// Waits until a thread waits on a channel of the desk, but no longer than the limit. Says whether one did.
///
/// That thread has released the channel's lock, and sleeps. So only a wake-up ends its wait.
pub fn is_awaited_in_time(desk: &Desk<u64>, channel: u32) -> bool {
    is_so_in_time(|| desk.is_awaited(&RT, channel) == Some(true))
}
