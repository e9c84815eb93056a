//! Whose recorder a channel belongs to: that of the thread which creates it, of its future, of the
//! thread that it follows, or none.

use crate::support::accepted;
use std::sync::mpsc;
use std::thread;
use yovanelum::{Recorder, SaveOnPanic, Scoped, block_on, broadcast, follow_this_thread};

/// Opens and drops a channel, which leaves two entries.
fn open() {
    drop(broadcast::channel::<u8>(2));
}

/// Ends a poll, so that others may run on the thread.
async fn yield_once() {
    let mut is_first = true;
    std::future::poll_fn(|context| {
        if std::mem::take(&mut is_first) {
            context.waker().wake_by_ref();
            return std::task::Poll::Pending;
        }
        std::task::Poll::Ready(())
    })
    .await;
}

#[test]
fn a_channel_under_no_recorder_belongs_to_none() {
    let (tx, mut rx) = broadcast::channel(2);
    assert!(Recorder::current().is_none());
    assert!(Recorder::of(&tx).is_none());
    tx.send(1).unwrap();
    // It belongs to none for good, also where a recorder is entered later.
    let recorder = Recorder::new();
    let _entered = recorder.enter();
    assert_eq!(rx.try_recv(), Ok(1));
    assert!(Recorder::of(&rx).is_none());
    assert!(recorder.is_empty());
}

#[test]
fn off_is_for_what_is_created_until_its_guard_is_dropped() {
    let recorder = Recorder::new();
    let _entered = recorder.enter();
    let off = Recorder::off();
    let guard = off.enter();
    assert!(Recorder::current().is_none());
    open();
    let inner = recorder.enter();
    open();
    drop(inner);
    block_on(off.scope(async { open() }));
    drop(guard);
    open();
    block_on(off.scope(async { open() }));
    assert_eq!((recorder.len(), off.len()), (4, 0));
    let error = off.journal().unwrap_err().to_string();
    assert!(error.contains("is off"), "{error}");
}

#[test]
#[cfg_attr(target_family = "wasm", ignore = "WebAssembly has no threads")]
fn futures_on_one_thread_have_the_channels_that_they_create() {
    let recorders = [Recorder::new(), Recorder::new()];
    let _all = Recorder::off().enter();
    let task = |count: u64| async move {
        for _ in 0..count {
            open();
            yield_once().await;
        }
    };
    let [mut first, mut second] = [
        Box::pin(recorders[0].scope(task(3))),
        Box::pin(recorders[1].scope(task(5))),
    ];
    // Polled in turns, and one of them on another thread in between.
    let mut context = std::task::Context::from_waker(std::task::Waker::noop());
    for _ in 0..2 {
        assert!(first.as_mut().poll(&mut context).is_pending());
        assert!(second.as_mut().poll(&mut context).is_pending());
    }
    thread::spawn(move || block_on(second)).join().unwrap();
    block_on(first);
    assert_eq!(recorders.map(|recorder| recorder.len()), [6, 10]);
}

/// Opens a channel when it is dropped.
struct OpensAtItsDrop;

impl Drop for OpensAtItsDrop {
    fn drop(&mut self) {
        open();
    }
}

#[test]
fn what_a_cancelled_future_creates_while_it_is_dropped_is_in_its_scope() {
    let recorder = Recorder::new();
    let held = OpensAtItsDrop;
    let task: Scoped<_> = recorder.scope(async move {
        let _held = held;
        std::future::pending::<()>().await;
    });
    assert_eq!(crate::support::poll_once(task), None);
    assert_eq!(recorder.len(), 2);
}

#[test]
#[cfg_attr(target_family = "wasm", ignore = "WebAssembly has no threads")]
fn threads_that_follow_have_what_is_entered_on_the_other() {
    let follow = follow_this_thread();
    let (jobs, todo) = mpsc::channel::<Box<dyn FnOnce() + Send>>();
    let worker = thread::spawn(move || {
        follow();
        todo.into_iter().for_each(|job| job());
    });
    let on_worker = |job: Box<dyn FnOnce() + Send>| {
        let (done, is_done) = mpsc::channel();
        let job = move || {
            job();
            done.send(()).unwrap();
        };
        jobs.send(Box::new(job)).unwrap();
        is_done.recv().unwrap();
    };
    let (recorder, own) = (Recorder::new(), Recorder::new());
    on_worker(Box::new(open));
    let entered = recorder.enter();
    on_worker(Box::new(open));
    assert_eq!(recorder.len(), 2);
    // What the worker enters itself is used first, and isn't entered here.
    let enters = own.clone();
    on_worker(Box::new(move || {
        let _entered = enters.enter();
        open();
        // A thread that follows the worker follows what that follows.
        let follow = follow_this_thread();
        thread::spawn(move || {
            follow();
            open();
        })
        .join()
        .unwrap();
    }));
    open();
    assert_eq!((recorder.len(), own.len()), (4, 4));
    drop(entered);
    on_worker(Box::new(open));
    assert_eq!((recorder.len(), own.len()), (4, 4));
    drop(jobs);
    worker.join().unwrap();
}

#[test]
#[cfg_attr(target_family = "wasm", ignore = "WebAssembly has no threads")]
fn a_guard_may_be_kept_for_as_long_as_its_thread() {
    thread_local! {
        static KEPT: std::cell::RefCell<Option<yovanelum::ForTest>> = const { std::cell::RefCell::new(None) };
    }
    let recorder = thread::spawn(|| {
        // Initialized first, so it is dropped last: after the thread's variable with the recorders
        // that it has entered.
        KEPT.with(|_| {});
        let test = Recorder::for_test("kept");
        let recorder = Recorder::clone(&test);
        KEPT.set(Some(test));
        open();
        recorder
    });
    assert_eq!(recorder.join().unwrap().len(), 2);
}

fn is_send<T: Send>(_: &T) -> bool {
    true
}

#[test]
#[cfg_attr(target_family = "wasm", ignore = "WebAssembly has no threads")]
fn a_test_that_is_a_task_may_be_sent_and_keeps_its_journal() {
    let name = crate::support::temporary::name("task");
    let recorder = Recorder::new();
    let saved: SaveOnPanic = recorder.save_on_panic(&name);
    let test = recorder.scope(async move {
        let _saved = saved;
        let (tx, mut rx) = broadcast::channel(2);
        tx.send(7).unwrap();
        yield_once().await;
        assert_eq!(rx.recv().await, Ok(8), "the test fails");
    });
    assert!(is_send(&test));
    let failed = thread::spawn(move || block_on(test)).join();
    assert!(failed.is_err());
    let path = crate::support::kept_journal(&name);
    let journal = std::fs::read_to_string(&path).unwrap();
    // The task's guard is dropped last, so the drops of the sender and the receiver are in the
    // journal.
    assert!(journal.contains("recv 1 = value 0"), "{journal}");
    assert!(journal.contains("drop 0 = dropped"), "{journal}");
    assert_eq!(accepted(&recorder, &name), 4);
    std::fs::remove_file(path.with_extension("names")).unwrap();
    std::fs::remove_file(path).unwrap();
}
