use super::*;
use crate::channels::recorder::Recorder;
use crate::channels::whereabouts::SeenPolls;
use std::panic::{AssertUnwindSafe, catch_unwind};
use std::sync::atomic::AtomicUsize;
use std::task::Wake;
use std::thread;

/// A task's own waker. Its clones are counted by its `Arc`.
#[derive(Default)]
struct Woken(AtomicUsize);

impl Wake for Woken {
    fn wake(self: Arc<Self>) {
        self.0.fetch_add(1, Ordering::Relaxed);
    }
}

/// A task that is seen by a test's recorder.
struct Seen {
    polls: SeenPolls,
    woken: Arc<Woken>,
    _recorder: Box<dyn std::any::Any>,
}

impl Seen {
    fn by(recorder: &str) -> Seen {
        Seen {
            polls: SeenPolls::default(),
            woken: Arc::default(),
            _recorder: Box::new(Recorder::for_test(recorder)),
        }
    }

    /// Polls the task by this function.
    fn poll<T>(&mut self, poll: impl FnOnce(&Waker) -> T) -> T {
        let own = Waker::from(self.woken.clone());
        let mut result = None;
        let polled = self
            .polls
            .poll_blocked(&mut Context::from_waker(&own), |context| {
                result = Some(poll(context.waker()));
                Poll::<()>::Pending
            });
        assert!(polled.is_pending());
        result.unwrap()
    }

    /// How many wakes there were, and how many wakers are alive.
    fn counts(&self) -> (usize, usize) {
        let woken = self.woken.0.load(Ordering::Relaxed);
        (woken, Arc::strong_count(&self.woken) - 1)
    }
}

#[test]
fn each_clone_is_released_once_however_it_ends() {
    let mut task = Seen::by("each_clone_is_released_once_however_it_ends");
    let (first, second) = task.poll(|lent| {
        lent.wake_by_ref();
        (lent.clone(), lent.clone())
    });
    assert_eq!(task.counts(), (1, 2));
    let third = first.clone();
    first.wake_by_ref();
    first.wake();
    assert_eq!(task.counts(), (3, 2));
    drop(second);
    assert_eq!(task.counts(), (3, 1));
    thread::spawn(move || third.wake()).join().unwrap();
    assert_eq!(task.counts(), (4, 0));
}

#[test]
fn a_clone_outlives_its_poll_its_task_and_its_test() {
    let mut task = Seen::by("a_clone_outlives_its_poll_its_task_and_its_test");
    let (kept, again) = task.poll(|lent| {
        let kept = lent.clone();
        let again = kept.clone();
        (kept, again)
    });
    let woken = task.woken.clone();
    drop(task);
    kept.wake();
    let other = again.clone();
    drop(again);
    other.wake_by_ref();
    drop(other);
    assert_eq!(woken.0.load(Ordering::Relaxed), 2);
    assert_eq!(Arc::strong_count(&woken), 1);
}

#[test]
fn threads_that_have_a_lent_waker_clone_and_wake_it_at_once() {
    let mut task = Seen::by("threads_that_have_a_lent_waker_clone_and_wake_it_at_once");
    task.poll(|lent| {
        thread::scope(|scope| {
            for _ in 0..4 {
                scope.spawn(|| {
                    for _ in 0..100 {
                        lent.wake_by_ref();
                        let kept = lent.clone();
                        kept.wake();
                    }
                });
            }
        });
    });
    assert_eq!(task.counts(), (800, 0));
}

#[test]
fn a_place_counts_while_its_clone_is_alive_at_the_end_of_the_poll() {
    let mut task = Seen::by("a_place_counts_while_its_clone_is_alive_at_the_end_of_the_poll");
    task.poll(|lent| drop(lent.clone()));
    assert!(task.polls.waits_at().is_none());
    let kept = task.poll(Waker::clone);
    assert!(task.polls.waits_at().is_some());
    // The next poll has a waker of its own, and so this one says nothing of it.
    task.poll(|_| ());
    assert!(task.polls.waits_at().is_none());
    drop(kept);
}

/// The functions of a waker whose clone panics.
static PANICS: RawWakerVTable = RawWakerVTable::new(|_| panic!("a clone"), |_| (), |_| (), |_| ());

#[test]
fn a_clone_that_panics_keeps_no_place() {
    let _recorder = Recorder::for_test("a_clone_that_panics_keeps_no_place");
    let mut polls = SeenPolls::default();
    // SAFETY: the functions use no data.
    let panics = unsafe { Waker::from_raw(RawWaker::new(ptr::null(), &PANICS)) };
    let polled = polls.poll_blocked(&mut Context::from_waker(&panics), |context| {
        let cloned = catch_unwind(AssertUnwindSafe(|| context.waker().clone()));
        assert!(cloned.is_err());
        Poll::<()>::Pending
    });
    assert!(polled.is_pending());
    assert_eq!(GIVEN.get(), None);
    assert!(polls.task().is_some() && polls.waits_at().is_none());
}
