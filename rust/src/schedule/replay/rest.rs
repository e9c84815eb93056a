//! Whether all threads of the process wait, and none of them until a time. Then only those who wait
//! before the gate can go on.

use super::clock::Time;
use crate::schedule::explore::{Asked, Sleeper, ThreadId, Threads, this_thread};
use std::path::Path;
use std::process;
use std::time::Duration;

/// What the threads of the process were seen to do.
pub(super) struct RestWatch {
    threads: Threads,
    /// The harness, which waits for the test until a time.
    harness: Option<ThreadId>,
    /// When the last call was made, and where all have slept since.
    before: Option<(Time, Vec<Sleeper>)>,
}

impl RestWatch {
    /// Those of this process, in which the current thread runs the test.
    pub(super) fn new() -> RestWatch {
        let main = process::id();
        RestWatch {
            threads: Threads::of(Path::new("/proc/self")),
            harness: (this_thread() != main).then_some(main),
            before: None,
        }
    }

    /// Whether all threads sleep where they did at the last look, and the last call was made at the
    /// same time. `blocked` wait before the gate. Where the system doesn't say what threads do,
    /// none are known to sleep.
    pub(super) fn is_seen(&mut self, turned_at: Time, blocked: &[ThreadId]) -> bool {
        let now = self.sleepers(blocked).map(|sleepers| (turned_at, sleepers));
        let is_same = now.is_some() && now == self.before;
        self.before = now;
        is_same
    }

    /// Forgets the last look.
    pub(super) fn forget(&mut self) {
        self.before = None;
    }

    fn sleepers(&mut self, blocked: &[ThreadId]) -> Option<Vec<Sleeper>> {
        if self.threads.is_by_clock() {
            return None;
        }
        let this = this_thread();
        let sleepers = self.threads.sleepers(Duration::ZERO, &|thread| {
            if thread == this || Some(thread) == self.harness {
                Asked::Nothing
            } else {
                Asked::Sleeps
            }
        });
        // Those before the gate wake up now and then.
        let may_go_on =
            |sleeper: &Sleeper| sleeper.is_timed() && !blocked.contains(&sleeper.thread);
        sleepers.filter(|sleepers| !sleepers.iter().any(may_go_on))
    }
}
