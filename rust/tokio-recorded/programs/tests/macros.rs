//! tokio's macros, through the re-export, with the two channels in them.

use std::future::Future;
use std::task::Poll;
use tokio::sync::{broadcast, mpsc, watch};

#[tokio::main(flavor = "current_thread")]
async fn program() -> u32 {
    let (orders, mut rx) = broadcast::channel(2);
    orders.send(71).unwrap();
    rx.recv().await.unwrap()
}

#[tokio::main]
async fn program_of_many_threads() -> Result<u32, broadcast::error::RecvError> {
    let (orders, mut rx) = broadcast::channel(2);
    let audit = tokio::spawn(async move { rx.recv().await });
    orders.send(71).unwrap();
    audit.await.unwrap()
}

#[test]
fn main_runs_a_program() {
    assert_eq!(program(), 71);
    assert_eq!(program_of_many_threads(), Ok(71));
}

#[tokio::test(flavor = "multi_thread", worker_threads = 2)]
async fn test_runs_a_test() {
    let (door, mut is_open) = watch::channel(false);
    let waits = tokio::spawn(async move { is_open.wait_for(|open| *open).await.is_ok() });
    door.send(true).unwrap();
    assert!(waits.await.unwrap());
}

#[tokio::test]
async fn select_takes_the_branch_that_is_ready() {
    let (orders, mut rx) = broadcast::channel::<u32>(2);
    let (door, mut is_open) = watch::channel(false);
    let (clerk, mut desk) = mpsc::channel::<u32>(1);
    let mut taken = vec![];
    for turn in 0..4 {
        match turn {
            0 => drop(orders.send(71)),
            1 => door.send(true).unwrap(),
            2 => clerk.send(72).await.unwrap(),
            _ => {}
        }
        tokio::select! {
            biased;
            Ok(id) = rx.recv() => taken.push(format!("order {id}")),
            Ok(()) = is_open.changed() => taken.push(format!("open {}", *is_open.borrow())),
            Some(id) = desk.recv() => taken.push(format!("desk {id}")),
            _ = std::future::ready(()), if turn == 3 => taken.push("ready".into()),
            else => taken.push("none".into()),
        }
    }
    assert_eq!(taken, ["order 71", "open true", "desk 72", "ready"]);
}

#[tokio::test]
async fn join_and_try_join_wait_for_all() {
    let (orders, mut audit) = broadcast::channel(4);
    let mut screen = orders.subscribe();
    orders.send(71).unwrap();
    let both = tokio::join!(audit.recv(), screen.recv());
    assert_eq!(both, (Ok(71), Ok(71)));
    orders.send(72).unwrap();
    assert_eq!(tokio::try_join!(audit.recv(), screen.recv()), Ok((72, 72)));
    orders.send(73).unwrap();
    assert_eq!(audit.recv().await, Ok(73));
    drop(orders);
    let one_closed = tokio::try_join!(screen.recv(), audit.recv());
    assert_eq!(one_closed, Err(broadcast::error::RecvError::Closed));
}

#[tokio::test]
async fn pin_keeps_a_receive_that_is_polled_twice() {
    let (orders, mut rx) = broadcast::channel(2);
    let receive = rx.recv();
    tokio::pin!(receive);
    let pending = std::future::poll_fn(|cx| Poll::Ready(receive.as_mut().poll(cx).is_pending()));
    assert!(pending.await);
    orders.send(71).unwrap();
    assert_eq!(receive.await, Ok(71));
}

tokio::task_local! {
    static ORDERS: broadcast::Sender<u32>;
}

#[tokio::test]
async fn task_local_holds_a_sender() {
    let (orders, mut rx) = broadcast::channel(2);
    let clerk = ORDERS.scope(orders, async { ORDERS.with(|orders| orders.send(71)) });
    assert_eq!(clerk.await.unwrap(), 1);
    assert_eq!(rx.recv().await, Ok(71));
    assert_eq!(rx.recv().await, Err(broadcast::error::RecvError::Closed));
}
