//! Tests side by side in one process, each with tasks on many threads: each has its own channels in
//! its journal, and no others.

use std::sync::Arc;
use std::thread;
use tokio::runtime::{Builder, Runtime};
use tokio::sync::Barrier;
use yovanelum::{Recorder, broadcast, follow_this_thread, watch};

/// How many channels the journal of a recorder has.
fn channels(recorder: &Recorder) -> usize {
    let journal = recorder.journal().unwrap();
    let head = journal.lines().take_while(|line| *line != "steps");
    let channels = head.filter(|line| line.starts_with("broadcast") || line.starts_with("watch"));
    channels.count()
}

/// Opens a channel, and makes a call on it.
fn open(number: usize) {
    match number % 2 {
        0 => drop(broadcast::channel(2).0.send(number)),
        _ => drop(watch::channel(0).0.send_replace(number)),
    }
}

/// What is tested: it knows of no recorder. It opens ten channels, of which nine are opened by
/// tasks and by a thread that may block.
async fn service(both: Arc<Barrier>) {
    open(0);
    let tasks: Vec<_> = (1..9)
        .map(|number| {
            let both = both.clone();
            tokio::spawn(async move {
                // All tasks of both tests are there when the first of them opens its channel.
                both.wait().await;
                open(number);
            })
        })
        .collect();
    for task in tasks {
        task.await.unwrap();
    }
    tokio::task::spawn_blocking(|| open(9)).await.unwrap();
}

/// Runs two tests side by side, each by this function on a thread of its own. Returns how many
/// channels their journals have.
fn side_by_side(test: fn(Arc<Barrier>) -> usize) -> [usize; 2] {
    let both = Arc::new(Barrier::new(16));
    let tests = [(); 2].map(|()| {
        let both = both.clone();
        thread::spawn(move || test(both))
    });
    tests.map(|test| test.join().unwrap())
}

#[test]
fn of_runtimes_whose_threads_enter_the_recorder() {
    let counts = side_by_side(|both| {
        let recorder = Recorder::for_test("of_runtimes_whose_threads_enter_the_recorder");
        let runtime = Builder::new_multi_thread()
            .worker_threads(4)
            .on_thread_start(recorder.on_thread_start())
            .build()
            .unwrap();
        runtime.block_on(service(both));
        channels(&recorder)
    });
    assert_eq!(counts, [10, 10]);
}

/// Builds a runtime before there is a recorder, as a package that stands in for tokio may do for
/// `#[tokio::test]`.
fn runtime() -> Runtime {
    Builder::new_multi_thread()
        .worker_threads(4)
        .on_thread_start(follow_this_thread())
        .build()
        .unwrap()
}

#[test]
fn of_runtimes_whose_threads_follow_the_test() {
    let counts = side_by_side(|both| {
        runtime().block_on(async {
            let recorder = Recorder::for_test("of_runtimes_whose_threads_follow_the_test");
            service(both).await;
            channels(&recorder)
        })
    });
    assert_eq!(counts, [10, 10]);
}

#[test]
fn of_tasks_in_a_scope_on_one_runtime() {
    let runtime = Builder::new_multi_thread()
        .worker_threads(4)
        .build()
        .unwrap();
    let both = Arc::new(Barrier::new(20));
    let recorders = [Recorder::new(), Recorder::new()];
    let tasks: Vec<_> = (0..20)
        .map(|number| {
            let both = both.clone();
            let recorder = &recorders[number % 2];
            runtime.spawn(recorder.scope(async move {
                both.wait().await;
                open(number);
            }))
        })
        .collect();
    runtime.block_on(async {
        for task in tasks {
            task.await.unwrap();
        }
    });
    assert_eq!(recorders.map(|recorder| channels(&recorder)), [10, 10]);
}

#[test]
fn of_a_test_that_moves_from_thread_to_thread() {
    let recorder = Recorder::new();
    let test = recorder.scope({
        let saved = recorder.save_on_panic("of_a_test_that_moves_from_thread_to_thread");
        async move {
            let _saved = saved;
            for number in 0..10 {
                open(number);
                tokio::task::yield_now().await;
            }
        }
    });
    let runtime = Builder::new_multi_thread()
        .worker_threads(4)
        .build()
        .unwrap();
    let others: Vec<_> = (0..100)
        .map(|number| {
            runtime.spawn(async move {
                open(number);
                tokio::task::yield_now().await;
                open(number);
            })
        })
        .collect();
    runtime.block_on(runtime.spawn(test)).unwrap();
    runtime.block_on(async {
        for other in others {
            other.await.unwrap();
        }
    });
    assert_eq!(channels(&recorder), 10);
}
