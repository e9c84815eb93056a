//! The signal at which the threads of a script begin.
// From crates/rw_script/src/start_latch.rt, with its contracts as comments. //+

use crate::shim::sync::{Condvar, Mutex, Wait};

/// A latch that threads wait for until it is told whether to let them go.
//~ #[derive(Drop)]
pub(crate) struct StartLatch {
    /// Whether to go, or `None` before the signal.
    go: Mutex<Option<bool>>,
    told: Condvar,
}

impl StartLatch {
    pub(crate) fn new() -> StartLatch {
        StartLatch {
            go: Mutex::new(None),
            told: Condvar::new(),
        }
    }

    /// Waits for the signal, and returns whether it was to go.
    pub(crate) fn wait(&self, rt: &impl Wait) -> bool {
        let mut guard = self.go.lock(rt);
        for _ in rt.forever() {
            if let Some(go) = *guard {
                drop(guard);
                return go;
            }
            guard = self.told.wait(rt, guard);
        }
        unreachable!()
    }

    /// Signals all threads to go, or else to stop.
    pub(crate) fn tell(&self, rt: &impl Wait, go: bool) {
        *self.go.lock(rt) = Some(go);
        self.told.notify_all();
    }
}
