//! Tasks that aren't known by the place that spawns them are told apart, each with the line of its
//! first call: by their ids, which this version of tokio says under `--cfg tokio_unstable` alone,
//! and else by numbers of the patch.

use std::collections::BTreeSet;
use std::thread;
use tokio::runtime::Handle;
use tokio::sync::broadcast;
use yovanelum::Recorder;

/// Returns the line of a key of the names.
fn member<'a>(names: &'a str, key: &str) -> &'a str {
    let start = format!("  \"{key}\": ");
    names
        .lines()
        .find_map(|line| line.strip_prefix(&start))
        .unwrap()
        .trim_end_matches(',')
}

#[tokio::test(flavor = "multi_thread", worker_threads = 2)]
async fn three_tasks_of_one_runtime_are_told_apart() {
    let recorder = Recorder::for_test("three_tasks");
    let (orders, mut audit) = broadcast::channel(8);
    let (first, second) = (orders.clone(), orders);
    let runtime = Handle::current();
    let line = line!();
    let spawn = move || {
        [
            runtime.spawn(async move { drop(first.send(71)) }),
            runtime.spawn(async move { drop(second.send(72)) }),
            runtime.spawn(async move { while audit.recv().await.is_ok() {} }),
        ]
    };
    // A thread without a name, and without a recorder.
    for task in thread::spawn(spawn).join().unwrap() {
        task.await.unwrap();
    }
    let names = recorder.names();
    let numbers: BTreeSet<_> = member(&names, "actors")
        .split('"')
        .filter_map(|name| name.strip_prefix("task "))
        .collect();
    assert_eq!(numbers.len(), 3, "{names}");
    let locations = member(&names, "locations");
    for line in line + 3..=line + 5 {
        let location = format!("[\"{}\", {line}, ", file!());
        assert!(locations.contains(&location), "{location} in {names}");
    }
    // The indexes of the lines of three tasks, which are three.
    let tasks = member(&names, "tasks").trim_matches(['{', '}']);
    let lines: BTreeSet<_> = tasks
        .split(", ")
        .map(|task| task.split_once(": ").unwrap().1)
        .collect();
    assert_eq!(lines.len(), 3, "{names}");
}

/// Returns who has made the call of a journal's line: its second number.
fn caller<'a>(journal: &'a str, call: &str) -> &'a str {
    let line = journal.lines().find(|line| line.contains(call));
    line.unwrap().split(' ').nth(1).unwrap()
}

#[tokio::test]
async fn what_a_cancelled_task_drops_is_dropped_by_it() {
    let recorder = Recorder::for_test("a_cancelled_task");
    let (orders, mut audit) = broadcast::channel(8);
    let clerk = tokio::spawn(async move {
        orders.send(71).unwrap();
        std::future::pending::<()>().await;
        drop(orders);
    });
    assert_eq!(audit.recv().await, Ok(71));
    clerk.abort();
    assert!(clerk.await.unwrap_err().is_cancelled());
    let journal = recorder.journal().unwrap();
    let [sent, received, dropped] =
        [" send 0 ", " recv 1 ", " drop 0 "].map(|call| caller(&journal, call));
    assert_eq!(sent, dropped, "{journal}");
    assert_ne!(sent, received, "{journal}");
}
