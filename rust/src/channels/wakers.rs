//! Wakers of futures that no longer wait for a channel. Which of them a call wakes, and in which
//! order, the proved list has said.

use crate::channels::wait::WaitTicket;
use std::panic::{self, AssertUnwindSafe};
use std::task::Waker;
use std::thread;
use yovanelum_core::shim::collections::BTreeMap;

/// Wakers to be woken while no lock is held: they may run user code, which may use the channel.
#[must_use]
#[derive(Default)]
pub(crate) struct Wakers {
    woken: Option<BTreeMap<WaitTicket, Option<Waker>>>,
    // Of a future that is gone, so it is only dropped.
    gone: Option<Waker>,
}

impl Wakers {
    /// Returns those of the futures that a call has woken.
    pub(crate) fn woken(woken: BTreeMap<WaitTicket, Option<Waker>>) -> Wakers {
        Wakers {
            woken: Some(woken),
            gone: None,
        }
    }

    /// Returns one that is only dropped.
    #[inline]
    pub(crate) fn gone(gone: Option<Waker>) -> Wakers {
        Wakers { woken: None, gone }
    }

    /// Adds one that is dropped with them.
    pub(crate) fn and_gone(self, gone: Option<Waker>) -> Wakers {
        Wakers { gone, ..self }
    }

    // None is moved: a copy in wide registers right after it was written waits for the writes.
    #[inline]
    pub(crate) fn wake(&mut self) {
        let gone = self.gone.take();
        match self.woken.take() {
            Some(woken) => wake_each(woken, gone),
            None => drop(gone),
        }
    }
}

/// Wakes them in order, and then drops the one of a future that is gone: its drop may panic, too.
/// One whose waker isn't cloned yet looks again after that. If one panics, the others are woken all
/// the same, and then the panic goes on. Within a panic that one goes on.
fn wake_each(wakers: BTreeMap<WaitTicket, Option<Waker>>, gone: Option<Waker>) {
    let mut panicked = None;
    for waker in wakers.into_values().flatten() {
        let woken = panic::catch_unwind(AssertUnwindSafe(|| waker.wake()));
        panicked = panicked.or(woken.err());
    }
    let dropped = panic::catch_unwind(AssertUnwindSafe(|| drop(gone)));
    panicked = panicked.or(dropped.err());
    if let Some(panicked) = panicked.filter(|_| !thread::panicking()) {
        panic::resume_unwind(panicked);
    }
}

/// Wakers that are woken when this is dropped, also by a panic.
pub(crate) struct WakeAtEnd(pub(crate) Wakers);

impl Drop for WakeAtEnd {
    #[inline]
    fn drop(&mut self) {
        self.0.wake();
    }
}

#[cfg(test)]
mod tests {
    use super::*;
    use std::sync::Arc;
    use std::sync::atomic::{AtomicU32, Ordering};
    use std::task::Wake;
    use yovanelum_core::shim::alloc::Global;

    struct CountsWakes(AtomicU32);

    impl Wake for CountsWakes {
        fn wake(self: Arc<Self>) {
            self.0.fetch_add(1, Ordering::Relaxed);
        }
    }

    struct PanicsInDrop;

    impl Wake for PanicsInDrop {
        fn wake(self: Arc<Self>) {}
    }

    impl Drop for PanicsInDrop {
        fn drop(&mut self) {
            panic!("a waker is dropped");
        }
    }

    #[test]
    fn a_waker_that_panics_when_it_is_dropped_keeps_nobody_asleep() {
        let woken = Arc::new(CountsWakes(AtomicU32::new(0)));
        let waiting = [(0, Some(Waker::from(woken.clone()))), (1, None)];
        let mut list = BTreeMap::new(Global);
        for (ticket, waker) in waiting {
            list.insert(ticket, waker).unwrap();
        }
        let gone = Some(Waker::from(Arc::new(PanicsInDrop)));
        let mut wakers = Wakers::woken(list).and_gone(gone);
        let panicked = panic::catch_unwind(AssertUnwindSafe(|| wakers.wake())).unwrap_err();
        assert_eq!(panicked.downcast_ref(), Some(&"a waker is dropped"));
        assert_eq!(woken.0.load(Ordering::Relaxed), 1);
    }
}
