//! Three pairs of programs, which differ in one thing that was missed where they are explored.

use std::sync::atomic::{AtomicU32, Ordering};
use std::sync::Arc;
use tokio::runtime::{Builder, Runtime};
use tokio::sync::{broadcast, mpsc, oneshot};
use tokio::task::{spawn, yield_now};

/// Two tasks, of which the second one is to find what the first one has set.
async fn two_tasks() {
    let set = Arc::new(AtomicU32::new(0));
    let of_first = set.clone();
    let first = spawn(async move { of_first.store(1, Ordering::SeqCst) });
    let second = spawn(async move { set.load(Ordering::SeqCst) });
    first.await.unwrap();
    assert_eq!(second.await.unwrap(), 1);
}

/// It begins with a spawn. It fails where the second task is polled first.
#[tokio::test]
#[ignore = "it is explored by another test"]
async fn begins_with_a_spawn() {
    two_tasks().await;
}

/// A channel comes before.
#[tokio::test]
#[ignore = "it is explored by another test"]
async fn begins_with_a_channel() {
    let (_orders, _audit) = broadcast::channel::<u32>(2);
    two_tasks().await;
}

/// Sets what a worker reads once it has gone round. It fails where it is held while the worker
/// goes round.
async fn sets_late() {
    let (tell, told) = oneshot::channel();
    let set = Arc::new(AtomicU32::new(0));
    let of_worker = set.clone();
    let worker = spawn(async move {
        tell.send(()).unwrap();
        for _ in 0..8 {
            yield_now().await;
        }
        of_worker.load(Ordering::SeqCst)
    });
    told.await.unwrap();
    set.store(1, Ordering::SeqCst);
    assert_eq!(worker.await.unwrap(), 1);
}

/// A runtime that looks after each poll of a task whether the test's body goes on.
fn runtime() -> Runtime {
    Builder::new_current_thread()
        .event_interval(1)
        .build()
        .unwrap()
}

/// The test's body sets it.
#[test]
#[ignore = "it is explored by another test"]
fn set_by_the_body() {
    runtime().block_on(async {
        let (_orders, _audit) = broadcast::channel::<u32>(2);
        sets_late().await;
    });
}

/// A task does.
#[test]
#[ignore = "it is explored by another test"]
fn set_by_a_task() {
    runtime().block_on(async {
        let (_orders, _audit) = broadcast::channel::<u32>(2);
        spawn(sets_late()).await.unwrap();
    });
}

/// Two tasks send what a third one is to get in their order. It fails where the second one is
/// polled first.
async fn in_order() {
    let (orders, mut got) = mpsc::channel(2);
    let send = |order: u32| {
        let orders = orders.clone();
        async move { orders.send(order).await.unwrap() }
    };
    let tasks = [spawn(send(1)), spawn(send(2))];
    for task in tasks {
        task.await.unwrap();
    }
    assert_eq!(got.recv().await, Some(1));
}

/// It has no recorded channel.
#[tokio::test]
#[ignore = "it is explored by another test"]
async fn without_a_channel() {
    in_order().await;
}

/// It has one.
#[tokio::test]
#[ignore = "it is explored by another test"]
async fn with_a_channel() {
    let (_orders, _audit) = broadcast::channel::<u32>(2);
    in_order().await;
}
