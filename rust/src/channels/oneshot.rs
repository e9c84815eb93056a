//! A value that one thread sends to another, as over tokio's `oneshot`. For a channel of std, rustc
//! would compile all three of its kinds.

use super::lock::lock;
use std::fmt;
use std::sync::{Arc, Condvar, Mutex, PoisonError};
use std::time::Duration;

struct OneshotState<T> {
    value: Option<T>,
    /// Whether the sender is dropped.
    is_closed: bool,
}

struct Inner<T> {
    slot: Mutex<OneshotState<T>>,
    changed: Condvar,
}

/// Sends the value.
pub(crate) struct Sender<T>(Arc<Inner<T>>);

/// Waits for the value.
pub(crate) struct Receiver<T>(Arc<Inner<T>>);

pub(crate) fn channel<T>() -> (Sender<T>, Receiver<T>) {
    let slot = OneshotState {
        value: None,
        is_closed: false,
    };
    let shared = Arc::new(Inner {
        slot: Mutex::new(slot),
        changed: Condvar::new(),
    });
    (Sender(shared.clone()), Receiver(shared))
}

impl<T> Sender<T> {
    /// Sends the value. A second one would replace it.
    pub(crate) fn send(&self, value: T) {
        lock(&self.0.slot).value = Some(value);
        self.0.changed.notify_all();
    }
}

impl<T> Drop for Sender<T> {
    fn drop(&mut self) {
        lock(&self.0.slot).is_closed = true;
        self.0.changed.notify_all();
    }
}

impl<T> Receiver<T> {
    /// Waits for the value. Returns `None` if the sender was dropped without one.
    pub(crate) fn recv(self) -> Option<T> {
        let mut slot = lock(&self.0.slot);
        while slot.value.is_none() && !slot.is_closed {
            slot = self
                .0
                .changed
                .wait(slot)
                .unwrap_or_else(PoisonError::into_inner);
        }
        slot.value.take()
    }

    /// Waits until the sender is dropped, at most for this time. Returns whether it is.
    pub(crate) fn is_closed_within(&self, patience: Duration) -> bool {
        let mut slot = lock(&self.0.slot);
        let changed = &self.0.changed;
        let waited = changed.wait_timeout_while(slot, patience, |slot| !slot.is_closed);
        (slot, _) = waited.unwrap_or_else(PoisonError::into_inner);
        slot.is_closed
    }
}

impl<T> fmt::Debug for Sender<T> {
    fn fmt(&self, f: &mut fmt::Formatter<'_>) -> fmt::Result {
        f.debug_struct("Sender").finish_non_exhaustive()
    }
}

impl<T> fmt::Debug for Receiver<T> {
    fn fmt(&self, f: &mut fmt::Formatter<'_>) -> fmt::Result {
        f.debug_struct("Receiver").finish_non_exhaustive()
    }
}

#[cfg(test)]
mod tests {
    use super::*;
    use std::thread;

    #[test]
    fn a_value_is_received_also_after_the_sender_is_dropped() {
        let (tx, rx) = channel();
        tx.send(7);
        drop(tx);
        assert_eq!(rx.recv(), Some(7));
    }

    #[test]
    fn a_sender_that_is_dropped_without_a_value_ends_the_wait() {
        let (tx, rx) = channel::<u32>();
        assert!(!rx.is_closed_within(Duration::ZERO));
        drop(tx);
        assert!(rx.is_closed_within(Duration::MAX));
        assert_eq!(rx.recv(), None);
    }

    #[test]
    #[cfg_attr(target_family = "wasm", ignore = "WebAssembly has no threads")]
    fn a_waiting_thread_is_woken() {
        let (tx, rx) = channel();
        let waiting = thread::spawn(|| rx.recv());
        tx.send("here");
        assert_eq!(waiting.join().unwrap(), Some("here"));
        let (tx, rx) = channel::<u32>();
        let waiting = thread::spawn(move || rx.is_closed_within(Duration::MAX));
        drop(tx);
        assert!(waiting.join().unwrap());
    }
}
