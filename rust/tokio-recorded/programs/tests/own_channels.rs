//! Tests side by side in one process, each on a runtime of many threads that `#[tokio::test]`
//! builds: each has its own channels.

use std::sync::{Arc, Mutex};
use std::thread;
use tokio::sync::{broadcast, watch, Barrier};
use tokio::task::spawn_blocking;
use yovanelum::Recorder;

/// Where the tasks of both tests meet, so that they run side by side.
static BOTH: Mutex<Option<Arc<Barrier>>> = Mutex::new(None);

fn both() -> Arc<Barrier> {
    let mut both = BOTH.lock().unwrap();
    both.get_or_insert_with(|| Arc::new(Barrier::new(16)))
        .clone()
}

/// Opens a channel, and makes a call on it.
fn open(number: usize) {
    match number % 2 {
        0 => drop(broadcast::channel(2).0.send(number)),
        _ => drop(watch::channel(0).0.send_replace(number)),
    }
}

/// What is tested: it opens ten channels, of which nine are opened by tasks and by a thread that
/// may block.
async fn service() {
    open(0);
    let tasks: Vec<_> = (1..9)
        .map(|number| {
            tokio::spawn(async move {
                both().wait().await;
                open(number);
            })
        })
        .collect();
    for task in tasks {
        task.await.unwrap();
    }
    spawn_blocking(|| open(9)).await.unwrap();
}

/// How many channels the journal of a recorder has.
fn channels(recorder: &Recorder) -> usize {
    let journal = recorder.journal().unwrap();
    let head = journal.lines().take_while(|line| *line != "steps");
    let channels = head.filter(|line| line.starts_with("broadcast") || line.starts_with("watch"));
    channels.count()
}

#[tokio::main(flavor = "multi_thread", worker_threads = 4)]
async fn first() -> usize {
    let recorder = Recorder::for_test("first");
    service().await;
    channels(&recorder)
}

// The attribute of a test builds its runtime in the same way.
#[tokio::main]
async fn second() -> usize {
    let recorder = Recorder::for_test("second");
    service().await;
    channels(&recorder)
}

#[test]
fn two_tests_have_ten_channels_each() {
    let tests = [thread::spawn(first), thread::spawn(second)];
    assert_eq!(tests.map(|test| test.join().unwrap()), [10, 10]);
}

#[tokio::test(flavor = "multi_thread")]
async fn a_test_has_what_its_tasks_create() {
    let recorder = Recorder::for_test("a_test_has_what_its_tasks_create");
    tokio::spawn(async { open(0) }).await.unwrap();
    spawn_blocking(|| open(1)).await.unwrap();
    assert_eq!(channels(&recorder), 2);
}

#[test]
fn a_function_for_the_start_of_threads_is_called_too() {
    let recorder = Recorder::for_test("a_function_for_the_start_of_threads_is_called_too");
    let started = Arc::new(Mutex::new(0));
    let starts = started.clone();
    let runtime = tokio::runtime::Builder::new_multi_thread()
        .worker_threads(2)
        .thread_name("worker")
        .on_thread_start(move || *starts.lock().unwrap() += 1)
        .enable_all()
        .build()
        .unwrap();
    runtime.block_on(async { tokio::spawn(async { open(0) }).await.unwrap() });
    assert!(*started.lock().unwrap() >= 1);
    assert_eq!(channels(&recorder), 1);
}

/// A runtime by the type that programs name, of a chain of many settings.
fn by_a_builder() -> tokio::runtime::Runtime {
    tokio::runtime::Builder::new_multi_thread()
        .worker_threads(2)
        .enable_io()
        .max_io_events_per_tick(64)
        .enable_time()
        .build()
        .unwrap()
}

#[test]
fn a_runtime_without_a_builder_follows_its_test() {
    let recorder = Recorder::for_test("a_runtime_without_a_builder_follows_its_test");
    let runtimes = [tokio::runtime::Runtime::new().unwrap(), by_a_builder()];
    for runtime in &runtimes {
        runtime.block_on(async { tokio::spawn(async { open(0) }).await.unwrap() });
        runtime.block_on(runtime.spawn(async { open(1) })).unwrap();
    }
    let [first, second] = runtimes;
    first.shutdown_timeout(std::time::Duration::from_secs(30));
    second.shutdown_background();
    assert_eq!(channels(&recorder), 4);
}

#[test]
fn a_committed_test_names_what_is_recorded() {
    let recorder = Recorder::for_test("a_committed_test_names_what_is_recorded");
    let (orders, audit) = broadcast::channel(2);
    let (desk, clerk) = tokio::sync::mpsc::channel::<u32>(2);
    yovanelum::name!(recorder, &orders, "orders");
    yovanelum::name!(recorder, &audit, "audit");
    yovanelum::name!(recorder, &desk, "desk");
    yovanelum::show!(recorder, &audit, |id: &u32| format!("order {id}"));
    yovanelum::show!(recorder, &clerk, |id: &u32| format!("paper {id}"));
    orders.send(71).unwrap();
    desk.try_send(71).unwrap();
    let names = recorder.names();
    assert!(names.contains(r#""channels": {"0": "orders"}"#), "{names}");
    assert!(names.contains(r#"{"1": "audit"}"#), "{names}");
    assert!(names.contains(r#"{"0": {"0": "order 71"}}"#), "{names}");
    assert!(
        !names.contains("desk") && !names.contains("paper"),
        "{names}"
    );
}
