//! Wakers whose clone uses the channel, while a call that waits is listed and nothing wakes it yet.

use std::future::Future;
use std::panic::{AssertUnwindSafe, catch_unwind};
use std::pin::pin;
use std::sync::atomic::{AtomicUsize, Ordering};
use std::sync::{Arc, Mutex};
use std::task::{Context, Poll, RawWaker, RawWakerVTable, Waker};
use yovanelum::{ChannelSnapshot, Recorder, broadcast, watch};

/// What a clone of a waker does, and how often one was cloned and woken.
struct Cloned {
    at_clone: Box<dyn Fn() + Send + Sync>,
    clones: AtomicUsize,
    wakes: AtomicUsize,
}

static TABLE: RawWakerVTable = RawWakerVTable::new(clone, wake, wake_by_ref, release);

unsafe fn clone(data: *const ()) -> RawWaker {
    // SAFETY: the data of each waker is one count of such an `Arc`, as in all functions here.
    let cloned = unsafe { &*data.cast::<Cloned>() };
    cloned.clones.fetch_add(1, Ordering::SeqCst);
    (cloned.at_clone)();
    // SAFETY: as above.
    unsafe { Arc::increment_strong_count(data.cast::<Cloned>()) };
    RawWaker::new(data, &TABLE)
}

unsafe fn wake(data: *const ()) {
    // SAFETY: as above.
    unsafe {
        wake_by_ref(data);
        release(data);
    }
}

unsafe fn wake_by_ref(data: *const ()) {
    // SAFETY: as above.
    let cloned = unsafe { &*data.cast::<Cloned>() };
    cloned.wakes.fetch_add(1, Ordering::SeqCst);
}

unsafe fn release(data: *const ()) {
    // SAFETY: as above.
    drop(unsafe { Arc::from_raw(data.cast::<Cloned>()) });
}

/// Returns a waker whose clones do this first.
fn waker(at_clone: impl Fn() + Send + Sync + 'static) -> (Arc<Cloned>, Waker) {
    let cloned = Arc::new(Cloned {
        at_clone: Box::new(at_clone),
        clones: AtomicUsize::new(0),
        wakes: AtomicUsize::new(0),
    });
    let data = Arc::into_raw(cloned.clone()).cast();
    // SAFETY: the functions of the table take a count of the `Arc`, and may be called anywhere.
    (cloned, unsafe { Waker::new(data, &TABLE) })
}

impl Cloned {
    /// How often one was cloned and woken, and how many wakers are left.
    fn counts(self: &Arc<Cloned>) -> [usize; 3] {
        let counts = [&self.clones, &self.wakes].map(|it| it.load(Ordering::SeqCst));
        [counts[0], counts[1], Arc::strong_count(self) - 1]
    }
}

#[test]
fn a_value_that_is_sent_while_the_waker_is_cloned_is_received_by_the_same_poll() {
    // Also where nothing is recorded.
    for recorder in [None, Some(Recorder::new())] {
        let _entered = recorder.as_ref().map(Recorder::enter);
        let (tx, mut rx) = broadcast::channel(4);
        let sender = tx.clone();
        let (cloned, waker) = waker(move || assert_eq!(sender.send(7).unwrap(), 1));
        {
            let mut received = pin!(rx.recv());
            let polled = received.as_mut().poll(&mut Context::from_waker(&waker));
            assert_eq!(polled, Poll::Ready(Ok(7)));
        }
        assert_eq!(ChannelSnapshot::of(&tx).receivers()[0].waits_in(), None);
        drop(waker);
        assert_eq!(cloned.counts(), [1, 0, 0]);
    }
}

#[test]
fn a_value_of_a_watch_that_is_sent_while_the_waker_is_cloned_is_seen_by_the_same_poll() {
    let (tx, mut rx) = watch::channel(0);
    let sender = tx.clone();
    let (cloned, waker) = waker(move || sender.send(7).unwrap());
    {
        let mut changed = pin!(rx.changed());
        let polled = changed.as_mut().poll(&mut Context::from_waker(&waker));
        assert!(matches!(polled, Poll::Ready(Ok(()))));
    }
    assert_eq!(*rx.borrow(), 7);
    drop(waker);
    assert_eq!(cloned.counts(), [1, 0, 0]);
}

#[test]
fn a_call_that_has_to_wait_again_when_its_waker_is_cloned_waits() {
    let (tx, rx) = broadcast::channel::<u32>(4);
    let last = Arc::new(Mutex::new(Some(rx)));
    let (sender, again) = (tx.clone(), last.clone());
    // The last receiver is dropped, which ends the wait, and there is one again.
    let (cloned, waker) = waker(move || {
        let mut last = again.lock().unwrap();
        drop(last.take());
        *last = Some(sender.subscribe());
    });
    let mut closed = pin!(tx.closed());
    let mut context = Context::from_waker(&waker);
    assert!(closed.as_mut().poll(&mut context).is_pending());
    assert_eq!(cloned.counts(), [1, 0, 2]);
    drop(last.lock().unwrap().take());
    assert_eq!(cloned.counts(), [1, 1, 1]);
    assert!(closed.as_mut().poll(&mut context).is_ready());
}

#[test]
#[cfg_attr(target_family = "wasm", ignore = "WebAssembly ends at the first panic")]
fn a_call_whose_waker_panics_when_it_is_cloned_waits_no_longer_than_its_future() {
    let (tx, mut rx) = broadcast::channel::<u32>(4);
    let (cloned, waker) = waker(|| panic!("in a clone"));
    let polled = catch_unwind(AssertUnwindSafe(|| {
        let mut received = pin!(rx.recv());
        let _ = received.as_mut().poll(&mut Context::from_waker(&waker));
    }));
    assert!(polled.is_err());
    assert_eq!(ChannelSnapshot::of(&tx).receivers()[0].waits_in(), None);
    assert_eq!(tx.send(7).unwrap(), 1);
    assert_eq!(rx.try_recv(), Ok(7));
    drop(waker);
    assert_eq!(cloned.counts(), [1, 0, 0]);
}
