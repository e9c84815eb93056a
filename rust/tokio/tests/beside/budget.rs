//! The same tasks receive from channels that are never empty: one of tokio's that counts towards
//! its budget, and those of this crate. Both give way after as many receives.

use crate::yielding::yield_now;
use std::cell::{Cell, RefCell};
use std::future::{Future, poll_fn};
use std::pin::pin;
use std::rc::Rc;
use std::task::Poll;
use tokio::runtime::Builder;
use tokio::sync::mpsc;
use tokio::task::LocalSet;
use tokio_stream::StreamExt;
use yovanelum::{broadcast, named, watch};
use yovanelum_stream::wrappers::BroadcastStream;

const VALUES: u32 = 500;

/// Returns how often a task counted before each turn of another task of its thread.
fn counted_at_turns(task: impl AsyncFnOnce(Rc<Cell<u32>>) + 'static) -> Vec<u32> {
    let (count, turns) = (Rc::new(Cell::new(0)), Rc::new(RefCell::new(vec![])));
    let (counted, noted) = (count.clone(), turns.clone());
    let runtime = Builder::new_current_thread().build().unwrap();
    let tasks = LocalSet::new();
    let counts = tasks.spawn_local(named("counts", async move { task(count).await }));
    let other = tasks.spawn_local(async move {
        loop {
            noted.borrow_mut().push(counted.get());
            yield_now().await;
        }
    });
    tasks.block_on(&runtime, async { counts.await.unwrap() });
    other.abort();
    drop(tasks);
    let turns = turns.take();
    turns
        .into_iter()
        .take_while(|turn| *turn < VALUES)
        .collect()
}

fn full() -> broadcast::Receiver<u32> {
    let (tx, rx) = broadcast::channel(VALUES as usize);
    for value in 0..VALUES {
        tx.send(value).unwrap();
    }
    rx
}

#[test]
fn a_named_task_gives_way_as_often_as_one_that_receives_from_a_channel_of_tokio() {
    let of_tokio = counted_at_turns(async |count| {
        let (tx, mut rx) = mpsc::unbounded_channel();
        (0..VALUES).for_each(|value| tx.send(value).unwrap());
        drop(tx);
        while rx.recv().await.is_some() {
            count.set(count.get() + 1);
        }
    });
    assert_eq!(of_tokio.len(), 3, "{of_tokio:?}");
    let received = counted_at_turns(async |count| {
        let mut rx = full();
        while rx.recv().await.is_ok() {
            count.set(count.get() + 1);
        }
    });
    assert_eq!(received, of_tokio);
    let streamed = counted_at_turns(async |count| {
        let mut stream = BroadcastStream::new(full());
        while stream.next().await.is_some() {
            count.set(count.get() + 1);
        }
    });
    assert_eq!(streamed, of_tokio);
    let changed = counted_at_turns(async |count| {
        let (tx, mut rx) = watch::channel(0);
        for value in 0..VALUES {
            tx.send(value).unwrap();
            rx.changed().await.unwrap();
            count.set(count.get() + 1);
        }
    });
    assert_eq!(changed, of_tokio);
}

#[test]
fn a_task_that_selects_gives_way_though_its_other_receiver_is_ready() {
    let turns = counted_at_turns(async |count| {
        let (_tx, mut shutdown) = broadcast::channel::<()>(1);
        let (mut one, mut other) = (full(), full());
        while count.get() < VALUES {
            tokio::select! {
                _ = shutdown.recv() => panic!("nobody sends"),
                value = one.recv() => drop(value.unwrap()),
                value = other.recv() => drop(value.unwrap()),
            }
            count.set(count.get() + 1);
        }
    });
    assert_eq!(turns, [128, 256, 384]);
}

#[tokio::test]
async fn who_polls_by_hand_has_no_budget_outside_of_a_named_future() {
    let mut rx = full();
    for value in 0..VALUES {
        let polled = poll_fn(|context| Poll::Ready(pin!(rx.recv()).poll(context)));
        assert_eq!(polled.await, Poll::Ready(Ok(value)));
    }
}
