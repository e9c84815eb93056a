//! Tests without an edit, whose tasks have no names, are explored. Each test runs this program
//! again, as a process.

use std::future::Future;
use std::process::Command;
use tokio::runtime::{Builder, Handle};
use tokio::sync::{broadcast, mpsc};
use tokio::task::{JoinSet, LocalSet};
use yovanelum::Recorder;

/// A router forwards orders to a bus, and a clerk who has sent them announces the end of the day
/// there by itself. Returns what the audit has got.
async fn day(waits_for_router: bool) -> Vec<u32> {
    let (desk, mut orders) = mpsc::channel(8);
    let bus = broadcast::Sender::new(16);
    let mut audit = bus.subscribe();
    let (of_router, of_clerk) = (bus.clone(), bus);
    let router = tokio::spawn(async move {
        while let Some(id) = orders.recv().await {
            of_router.send(id).unwrap();
        }
    });
    let clerk = tokio::spawn(async move {
        for id in 1..=3 {
            desk.send(id).await.unwrap();
            tokio::task::yield_now().await;
        }
        drop(desk);
        if waits_for_router {
            router.await.unwrap()
        } else {
            tokio::task::yield_now().await
        }
        of_clerk.send(0).unwrap();
    });
    let audit = tokio::spawn(async move {
        let mut got = vec![];
        while let Ok(id) = audit.recv().await {
            got.push(id);
        }
        got
    });
    clerk.await.unwrap();
    audit.await.unwrap()
}

#[tokio::test]
#[ignore = "it is explored by another test"]
async fn the_day_ends_last() {
    let _recorder = Recorder::for_test("the_day_ends_last");
    assert_eq!(day(false).await, [1, 2, 3, 0]);
}

#[tokio::test]
#[ignore = "it is explored by another test"]
async fn the_day_ends_after_its_orders() {
    let _recorder = Recorder::for_test("the_day_ends_after_its_orders");
    assert_eq!(day(true).await, [1, 2, 3, 0]);
}

#[tokio::test]
#[ignore = "it is explored by another test"]
async fn the_audit_lags() {
    let _recorder = Recorder::for_test("the_audit_lags");
    let (tx, mut rx) = broadcast::channel(2);
    let audit = tokio::spawn(async move { rx.recv().await });
    let clerk = tokio::spawn(async move {
        for id in 1..=3 {
            tx.send(id).unwrap();
        }
    });
    clerk.await.unwrap();
    assert_eq!(audit.await.unwrap(), Ok(1));
}

/// Two futures that send their numbers. The tasks of a runtime are polled in the order in which
/// they were spawned, unless they are explored.
fn two() -> (
    [impl Future<Output = ()> + Send + 'static; 2],
    broadcast::Receiver<u32>,
) {
    let (tx, rx) = broadcast::channel(8);
    let send = |number| {
        let tx = tx.clone();
        async move {
            tx.send(number).unwrap();
        }
    };
    ([send(1), send(2)], rx)
}

#[tokio::test]
#[ignore = "it is explored by another test"]
async fn a_set() {
    let _recorder = Recorder::for_test("a_set");
    let (tasks, mut rx) = two();
    let mut set = JoinSet::new();
    for task in tasks {
        set.spawn(task);
    }
    while set.join_next().await.is_some() {}
    assert_eq!(rx.recv().await, Ok(1));
}

#[tokio::test]
#[ignore = "it is explored by another test"]
async fn a_set_on_a_handle() {
    let _recorder = Recorder::for_test("a_set_on_a_handle");
    let (tasks, mut rx) = two();
    let mut set = JoinSet::new();
    for task in tasks {
        set.spawn_on(task, &Handle::current());
    }
    set.join_all().await;
    assert_eq!(rx.recv().await, Ok(1));
}

#[tokio::test]
#[ignore = "it is explored by another test"]
async fn a_collected_set() {
    let _recorder = Recorder::for_test("a_collected_set");
    let (tasks, mut rx) = two();
    let set: JoinSet<_> = tasks.into_iter().collect();
    set.join_all().await;
    assert_eq!(rx.recv().await, Ok(1));
}

#[tokio::test]
#[ignore = "it is explored by another test"]
async fn a_handle() {
    let _recorder = Recorder::for_test("a_handle");
    let (tasks, mut rx) = two();
    for task in tasks.map(|task| Handle::current().spawn(task)) {
        task.await.unwrap();
    }
    assert_eq!(rx.recv().await, Ok(1));
}

#[test]
#[ignore = "it is explored by another test"]
fn a_runtime() {
    let _recorder = Recorder::for_test("a_runtime");
    let runtime = Builder::new_current_thread().build().unwrap();
    let ([first, second], mut rx) = two();
    let tasks = [runtime.spawn(first), runtime.handle().spawn(second)];
    runtime.block_on(async {
        for task in tasks {
            task.await.unwrap();
        }
        assert_eq!(rx.recv().await, Ok(1));
    });
}

#[tokio::test]
#[ignore = "it is explored by another test"]
async fn a_local_set() {
    let _recorder = Recorder::for_test("a_local_set");
    let ([first, second], mut rx) = two();
    let local = LocalSet::new();
    local.spawn_local(first);
    local.spawn_local(second);
    local.await;
    assert_eq!(rx.recv().await, Ok(1));
}

#[tokio::test]
#[ignore = "it is explored by another test"]
async fn a_set_of_local_tasks() {
    let _recorder = Recorder::for_test("a_set_of_local_tasks");
    let ([first, second], mut rx) = two();
    let (local, mut set) = (LocalSet::new(), JoinSet::new());
    set.spawn_local_on(first, &local);
    local
        .run_until(async {
            set.spawn_local(second);
            while set.join_next().await.is_some() {}
        })
        .await;
    assert_eq!(rx.recv().await, Ok(1));
}

#[tokio::test]
#[ignore = "it is explored by another test"]
async fn local_tasks() {
    let _recorder = Recorder::for_test("local_tasks");
    let (tasks, mut rx) = two();
    let local = LocalSet::new();
    local
        .run_until(async {
            for task in tasks.map(tokio::task::spawn_local) {
                task.await.unwrap();
            }
        })
        .await;
    assert_eq!(rx.recv().await, Ok(1));
}

/// Explores a test of this program. Returns whether it passes, and what it says.
fn explored(test: &str) -> (bool, String) {
    let program = std::env::current_exe().unwrap();
    let ran = Command::new(program)
        .args(["--ignored", "--exact", test])
        .env("YOVANELUM_EXPLORE", "120")
        .env("YOVANELUM_EXPLORE_JOBS", "1")
        .output()
        .unwrap();
    (ran.status.success(), String::from_utf8(ran.stderr).unwrap())
}

#[test]
fn an_order_of_tasks_without_names_is_found() {
    let (passes, said) = explored("the_day_ends_last");
    assert!(!passes, "{said}");
    for part in [
        "explored the_day_ends_last: ",
        "left: [",
        "\nreplay: ",
        "\nagain:  YOVANELUM_EXPLORE=1 ",
    ] {
        assert!(said.contains(part), "{part} in {said}");
    }
}

#[test]
fn tasks_without_names_are_actors_in_the_report() {
    let (passes, said) = explored("the_audit_lags");
    assert!(!passes, "{said}");
    let (task, lost) = (
        "error: `task of tests/explored.rs:",
        "` lost 1 of 3 values of the channel of tests/explored.rs:65 (capacity 2)",
    );
    let told = |line: &str| line.starts_with(task) && line.ends_with(lost);
    assert!(said.lines().any(told), "{said}");
}

#[test]
fn where_none_fails_all_orders_without_a_switch_were_tried() {
    let (passes, said) = explored("the_day_ends_after_its_orders");
    assert!(passes, "{said}");
    assert!(
        said.contains(": all 120 runs passed, in ")
            && said.contains(" orders without a switch passed"),
        "{said}"
    );
}

/// Asserts that the order of two tasks is found, in which the second is the first.
fn assert_seen(test: &str) {
    let (passes, said) = explored(test);
    assert!(
        !passes && said.contains("  left: Ok(2)\n right: Ok(1)\n"),
        "{said}"
    );
}

#[test]
fn tasks_of_a_set_are_seen() {
    assert_seen("a_set");
    assert_seen("a_set_on_a_handle");
    assert_seen("a_collected_set");
}

#[test]
fn tasks_of_a_handle_are_seen() {
    assert_seen("a_handle");
}

#[test]
fn tasks_of_a_runtime_are_seen() {
    assert_seen("a_runtime");
}

#[test]
fn tasks_of_one_thread_are_seen() {
    assert_seen("a_local_set");
    assert_seen("a_set_of_local_tasks");
    assert_seen("local_tasks");
}
