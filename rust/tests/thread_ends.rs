//! What lives in thread locals, and is used and dropped when its thread ends. A panic there aborts
//! the process, so each test runs this program again for its part.

mod support;

use std::cell::RefCell;
use std::future::Future;
use std::pin::Pin;
use std::task::{Context, Waker};
use std::{fs, thread};
use support::parts::{self, Folder, is_part};
use yovanelum::{ForTest, Recorder, broadcast, named};

thread_local! {
    static FOR_TEST: RefCell<Option<ForTest>> = const { RefCell::new(None) };
    static LAST: RefCell<Option<Last>> = const { RefCell::new(None) };
    static TASK: RefCell<Option<Task>> = const { RefCell::new(None) };
}

type Task = Pin<Box<dyn Future<Output = ()>>>;

/// A value that enters a recorder and uses a channel when it is dropped.
struct Last(Recorder);

impl Drop for Last {
    fn drop(&mut self) {
        let entered = self.0.enter();
        let (tx, mut rx) = broadcast::channel(2);
        tx.send(5).unwrap();
        assert_eq!(rx.try_recv(), Ok(5));
        drop((tx, rx));
        drop(entered);
    }
}

/// Runs in a thread. What is stored in thread locals there is destroyed in the reverse order of its
/// first use, and these locals are used before any of the crate's own.
fn in_a_thread(act: impl FnOnce() + Send + 'static) {
    let act = || {
        FOR_TEST.with_borrow(|_| {});
        LAST.with_borrow(|_| {});
        TASK.with_borrow(|_| {});
        act();
    };
    thread::spawn(act).join().unwrap();
}

#[test]
fn a_recorder_for_a_test_in_a_thread_local_is_dropped_with_its_thread() {
    if is_part() {
        return in_a_thread(|| {
            let recorder = Recorder::for_test("in_a_thread_local");
            let (tx, _rx) = broadcast::channel(2);
            tx.send(1).unwrap();
            FOR_TEST.set(Some(recorder));
        });
    }
    let folder = Folder::new("thread-local");
    let test = "a_recorder_for_a_test_in_a_thread_local_is_dropped_with_its_thread";
    let (succeeds, said) = parts::play(test, &folder.0, Some("1"));
    assert!(succeeds, "{said}");
    let journal = parts::files(&folder.0).join("in_a_thread_local.journal");
    let journal = fs::read_to_string(journal).unwrap();
    assert!(journal.contains(" send 0 0 = sent 1\n"), "{journal}");
}

#[test]
fn a_recorder_may_be_entered_where_a_thread_local_is_dropped() {
    if is_part() {
        return in_a_thread(|| {
            let recorder = Recorder::new();
            // Its guard is used before the end, so that the crate's own locals are destroyed first.
            drop(recorder.enter());
            LAST.set(Some(Last(recorder)));
        });
    }
    let folder = Folder::new("thread-end");
    let test = "a_recorder_may_be_entered_where_a_thread_local_is_dropped";
    let (succeeds, said) = parts::play(test, &folder.0, None);
    assert!(succeeds, "{said}");
}

#[test]
fn a_task_of_an_explored_run_may_be_dropped_with_its_thread() {
    if is_part() {
        let _recorder = Recorder::for_test("in_a_thread_local");
        let (_tx, mut rx) = broadcast::channel::<u32>(2);
        return in_a_thread(move || {
            let receives = async move { drop(rx.recv().await) };
            let mut task: Task = Box::pin(named("clerk", receives));
            let mut context = Context::from_waker(Waker::noop());
            assert!(task.as_mut().poll(&mut context).is_pending());
            TASK.set(Some(task));
        });
    }
    let folder = Folder::new("explored-thread-end");
    let test = "a_task_of_an_explored_run_may_be_dropped_with_its_thread";
    let mut part = parts::started(test, &folder.0);
    let ran = part.arg("--nocapture").env("YOVANELUM_EXPLORE", "2");
    let ran = ran.env("YOVANELUM_EXPLORE_JOBS", "1").output().unwrap();
    let said = String::from_utf8(ran.stderr).unwrap();
    // No run fails, and nobody stands beside another one in any.
    let line =
        "explored in_a_thread_local: nothing was explored: there was one order alone in 2 runs";
    assert!(!ran.status.success() && said.contains(line), "{said}");
}
