//! Polls that are held back until all threads sleep. Each test has a process of its own, where no
//! other test runs beside it.

use super::{PATIENT, gate_that_holds, make_first, told};
use crate::schedule::explore::{Asked, Threads, this_thread};
use crate::schedule::replay::clock::RunningClock;
use crate::schedule::replay::rest::RestWatch;
use std::path::Path;
use std::process::{Command, Stdio};
use std::sync::atomic::{AtomicBool, Ordering};
use std::sync::{Arc, mpsc};
use std::task::Context;
use std::time::{Duration, Instant};
use std::{env, thread};

const ALONE: &str = "YOVANELUM_TEST_ALONE";

/// Returns `true` in a process that runs this test alone. Else it is run in one, and has to succeed
/// there.
fn is_alone(test: &str) -> bool {
    if env::var_os(ALONE).is_some() {
        return true;
    }
    let (_, here) = module_path!().split_once("::").unwrap();
    let mut alone = Command::new(env::current_exe().unwrap())
        .args(["--exact", &format!("{here}::{test}")])
        .env(ALONE, "1")
        .stdout(Stdio::null())
        .spawn()
        .unwrap();
    let began = Instant::now();
    while alone.try_wait().unwrap().is_none() && began.elapsed() < PATIENT {
        thread::sleep(Duration::from_millis(5));
    }
    let _ = alone.kill();
    assert!(alone.wait().unwrap().success());
    false
}

/// Looks until all are seen to sleep, or looks `times` times in vain.
fn is_seen(rest: &mut RestWatch, times: usize) -> bool {
    let now = RunningClock::new().now();
    (0..times).any(|_| {
        thread::yield_now();
        rest.is_seen(now, &[])
    })
}

/// Starts a thread, and returns when it runs.
fn start(run: impl FnOnce() + Send + 'static) {
    let (begin, begun) = mpsc::channel();
    thread::spawn(move || {
        begin.send(()).unwrap();
        run();
    });
    begun.recv().unwrap();
}

#[test]
fn a_poll_is_held_back_no_longer_than_anybody_runs() {
    if !is_alone("a_poll_is_held_back_no_longer_than_anybody_runs") {
        return;
    }
    let gate = gate_that_holds();
    let (_, waker, woken) = told();
    let context = Context::from_waker(&waker);
    // The turn is that of one without a name, who never comes.
    make_first(&gate, 3);
    assert!(gate.holds("audit", None, &context));
    assert_eq!(woken.recv().unwrap(), "yovanelum-replay");
    assert!(!gate.holds("audit", None, &context));
}

#[test]
fn threads_that_wait_for_each_other_sleep() {
    if !is_alone("threads_that_wait_for_each_other_sleep") {
        return;
    }
    let mut rest = RestWatch::new();
    let (_kept, never) = mpsc::channel::<()>();
    start(move || {
        let _ = never.recv();
    });
    while !is_seen(&mut rest, 1000) {}
}

#[test]
fn a_thread_that_waits_for_a_time_may_go_on() {
    if !is_alone("a_thread_that_waits_for_a_time_may_go_on") {
        return;
    }
    let mut rest = RestWatch::new();
    start(|| thread::sleep(Duration::from_secs(600)));
    assert!(!is_seen(&mut rest, 1000));
}

#[test]
fn a_thread_that_runs_may_go_on() {
    if !is_alone("a_thread_that_runs_may_go_on") {
        return;
    }
    let mut rest = RestWatch::new();
    let is_over = Arc::new(AtomicBool::new(false));
    let of_thread = is_over.clone();
    start(move || while !of_thread.load(Ordering::Relaxed) {});
    assert!(!is_seen(&mut rest, 1000));
    is_over.store(true, Ordering::Relaxed);
}

#[test]
fn a_thread_that_begins_as_another_ends_is_seen() {
    if !is_alone("a_thread_that_begins_as_another_ends_is_seen") {
        return;
    }
    let mut threads = Threads::of(Path::new("/proc/self"));
    if threads.is_by_clock() {
        return;
    }
    let (go, gone) = mpsc::channel::<()>();
    let (tell, told) = mpsc::channel();
    let first = thread::spawn(move || {
        tell.send(this_thread()).unwrap();
        let _ = gone.recv();
    });
    let number = told.recv().unwrap();
    let harness = [this_thread(), std::process::id()];
    let asked = |thread| {
        if harness.contains(&thread) {
            Asked::Nothing
        } else {
            Asked::Sleeps
        }
    };
    while threads.sleepers(Duration::ZERO, &asked).is_none() {
        thread::yield_now();
    }
    drop(go);
    first.join().unwrap();
    // Its thread is listed a little longer than it runs.
    while Path::new(&format!("/proc/self/task/{number}")).exists() {
        thread::yield_now();
    }
    let is_over = Arc::new(AtomicBool::new(false));
    let of_thread = is_over.clone();
    start(move || while !of_thread.load(Ordering::Relaxed) {});
    for _ in 0..1000 {
        assert_eq!(threads.sleepers(Duration::ZERO, &asked), None);
    }
    is_over.store(true, Ordering::Relaxed);
}
