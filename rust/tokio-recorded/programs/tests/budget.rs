//! A task that receives from a channel that is never empty gives way to others. Under
//! `--cfg tokio_unstable` the tokio of these tests offers its budget, as later versions do: then
//! what a task takes of it is taken from its receives, too.

use std::cell::{Cell, RefCell};
use std::future::{poll_fn, Future};
use std::pin::pin;
use std::rc::Rc;
use std::task::{Context, Poll, Waker};
use tokio::runtime::{Builder, Runtime};
use tokio::sync::{broadcast, mpsc};
use tokio::task::LocalSet;

/// A channel with this many values to receive, which is closed behind them.
fn full(values: u32) -> broadcast::Receiver<u32> {
    let (tx, rx) = broadcast::channel(values as usize);
    for value in 0..values {
        tx.send(value).unwrap();
    }
    rx
}

/// Is ready when the task is polled again. tokio's own leaves a set of tasks first.
async fn yield_now() {
    let mut has_yielded = false;
    poll_fn(|context| {
        if has_yielded {
            return Poll::Ready(());
        }
        has_yielded = true;
        context.waker().wake_by_ref();
        Poll::Pending
    })
    .await
}

fn runtime() -> Runtime {
    Builder::new_current_thread().build().unwrap()
}

/// Counts what is received at each turn of another task of the same thread.
fn received_at_turns<F: Future<Output = ()> + 'static>(
    receives: impl FnOnce(Rc<Cell<u32>>) -> F,
) -> Vec<u32> {
    let (count, is_done) = (Rc::new(Cell::new(0)), Rc::new(Cell::new(false)));
    let turns = Rc::new(RefCell::new(vec![]));
    let (counted, done, noted) = (count.clone(), is_done.clone(), turns.clone());
    let receives = receives(count);
    let tasks = LocalSet::new();
    let task = tasks.spawn_local(async move {
        receives.await;
        is_done.set(true);
    });
    let other = tasks.spawn_local(async move {
        while !done.get() {
            noted.borrow_mut().push(counted.get());
            yield_now().await;
        }
    });
    tasks.block_on(&runtime(), async {
        task.await.unwrap();
        other.await.unwrap();
    });
    turns.take()
}

#[test]
fn a_task_that_receives_all_gives_way() {
    let turns = received_at_turns(|count| async move {
        let mut rx = full(500);
        while rx.recv().await.is_ok() {
            count.set(count.get() + 1);
        }
    });
    assert_eq!(turns, [128, 256, 384]);
}

#[test]
fn a_task_that_selects_gives_way() {
    let turns = received_at_turns(|count| async move {
        let (_tx, mut shutdown) = broadcast::channel::<()>(1);
        let (mut one, mut other) = (full(250), full(250));
        for _ in 0..500 {
            tokio::select! {
                _ = shutdown.recv() => panic!("nobody sends"),
                Ok(_) = one.recv() => (),
                Ok(_) = other.recv() => (),
            }
            count.set(count.get() + 1);
        }
    });
    assert!(turns.len() >= 3, "{turns:?}");
    let between = turns.windows(2).map(|turns| turns[1] - turns[0]);
    assert!(
        turns[0] <= 128 && between.max().unwrap() <= 128,
        "{turns:?}"
    );
}

#[test]
fn a_runtime_that_blocks_on_a_future_has_its_budget_too() {
    let turns = Rc::new(RefCell::new(vec![]));
    let (count, tasks) = (Rc::new(Cell::new(0)), LocalSet::new());
    let (counted, noted) = (count.clone(), turns.clone());
    tasks.spawn_local(async move {
        loop {
            noted.borrow_mut().push(counted.get());
            yield_now().await;
        }
    });
    runtime().block_on(tasks.run_until(async move {
        let mut rx = full(300);
        while rx.recv().await.is_ok() {
            count.set(count.get() + 1);
        }
    }));
    // The other task has many turns until the runtime polls again.
    turns.borrow_mut().dedup();
    assert_eq!(turns.borrow()[..2], [128, 256]);
}

#[test]
fn who_polls_outside_of_a_runtime_has_no_budget() {
    let mut rx = full(1000);
    for value in 0..1000 {
        let mut context = Context::from_waker(Waker::noop());
        assert_eq!(pin!(rx.recv()).poll(&mut context), Poll::Ready(Ok(value)));
    }
    yovanelum::block_on(async {
        let mut rx = full(1000);
        while rx.recv().await.is_ok() {}
    });
}

#[test]
fn the_budget_is_tokios_where_it_offers_one() {
    let turns = received_at_turns(|count| async move {
        let (tx, mut theirs) = mpsc::unbounded_channel();
        for value in 0..100 {
            tx.send(value).unwrap();
        }
        for _ in 0..100 {
            theirs.recv().await.unwrap();
        }
        let mut rx = full(100);
        while rx.recv().await.is_ok() {
            count.set(count.get() + 1);
        }
    });
    let offered: &[u32] = if cfg!(tokio_unstable) { &[28] } else { &[] };
    assert_eq!(turns, offered);
}
