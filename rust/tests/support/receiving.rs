//! Receivers in equal parts on four threads, also for the bench beside tokio.

use std::sync::Barrier;
use std::thread;
use std::time::{Duration, Instant};

/// How many values are sent before they are received: the capacity of the channel.
pub const SENT: usize = 4096;

/// Has the receivers receive side by side what was sent before. Returns how many receives they
/// made, and how long these took: the sends aren't timed.
pub fn side_by_side<R: Send>(
    calls: usize,
    mut all: Vec<R>,
    send: impl Fn(usize),
    receive: impl Fn(&mut R) + Sync,
) -> (usize, Duration) {
    let receivers = all.len();
    let rounds = (calls / (SENT * (receivers + 1))).max(1);
    let parts: Vec<_> = all.chunks_mut(receivers.div_ceil(4)).collect();
    let barrier = Barrier::new(parts.len() + 1);
    let mut took = Duration::ZERO;
    thread::scope(|scope| {
        for part in parts {
            scope.spawn(|| {
                for _ in 0..rounds {
                    barrier.wait();
                    for _ in 0..SENT {
                        part.iter_mut().for_each(&receive);
                    }
                    barrier.wait();
                }
            });
        }
        for _ in 0..rounds {
            (0..SENT).for_each(&send);
            // The others wait there by now. After it, they may be done before this thread runs
            // again.
            let start = Instant::now();
            barrier.wait();
            barrier.wait();
            took += start.elapsed();
        }
    });
    (rounds * SENT * receivers, took)
}
