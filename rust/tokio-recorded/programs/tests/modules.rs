//! Which modules are whose: the two channels are recorded, and all else is tokio's.

// One line for both, as in programs.
use tokio::sync::{broadcast, mpsc, watch};
use yovanelum::Recorder;

/// What a service that listens to all three may fail with: errors of both crates, by tokio's paths.
#[derive(Debug, PartialEq)]
enum Fault {
    Lagged(u64),
    Closed,
    NoWatch,
    Full,
}

impl From<tokio::sync::broadcast::error::RecvError> for Fault {
    fn from(error: tokio::sync::broadcast::error::RecvError) -> Fault {
        match error {
            broadcast::error::RecvError::Lagged(n) => Fault::Lagged(n),
            broadcast::error::RecvError::Closed => Fault::Closed,
        }
    }
}

impl From<watch::error::RecvError> for Fault {
    fn from(_: tokio::sync::watch::error::RecvError) -> Fault {
        Fault::NoWatch
    }
}

impl<T> From<mpsc::error::TrySendError<T>> for Fault {
    fn from(_: tokio::sync::mpsc::error::TrySendError<T>) -> Fault {
        Fault::Full
    }
}

async fn pass_on(
    orders: &mut broadcast::Receiver<u32>,
    is_open: &mut watch::Receiver<bool>,
    clerk: &mpsc::Sender<u32>,
) -> Result<u32, Fault> {
    let id = orders.recv().await?;
    is_open.changed().await?;
    clerk.try_send(id)?;
    Ok(id)
}

#[tokio::test]
async fn errors_of_all_three_are_converted_in_one_function() {
    let (orders, mut rx) = broadcast::channel(2);
    let (door, mut is_open) = watch::channel(false);
    let (clerk, _desk) = mpsc::channel(1);
    orders.send(71).unwrap();
    door.send(true).unwrap();
    let first = pass_on(&mut rx, &mut is_open, &clerk).await;
    assert_eq!(first, Ok(71));
    orders.send(72).unwrap();
    door.send(true).unwrap();
    let full = pass_on(&mut rx, &mut is_open, &clerk).await;
    assert_eq!(full, Err(Fault::Full));
    for id in [73, 74, 75] {
        orders.send(id).unwrap();
    }
    let lagged = pass_on(&mut rx, &mut is_open, &clerk).await;
    assert_eq!(lagged, Err(Fault::Lagged(1)));
    drop(door);
    let unwatched = pass_on(&mut rx, &mut is_open, &clerk).await;
    assert_eq!(unwatched, Err(Fault::NoWatch));
    drop(orders);
    assert_eq!(rx.recv().await.map_err(Fault::from), Ok(75));
    assert_eq!(rx.recv().await.map_err(Fault::from), Err(Fault::Closed));
}

#[test]
fn the_two_modules_are_those_that_record() {
    let recorder = Recorder::new();
    let _entered = recorder.enter();
    let (orders, _rx): (yovanelum::broadcast::Sender<u32>, _) = broadcast::channel(2);
    let (door, _is_open): (yovanelum::watch::Sender<bool>, _) = watch::channel(false);
    let (_clerk, _desk) = mpsc::channel::<u32>(1);
    orders.send(71).unwrap();
    door.send(true).unwrap();
    assert_eq!(recorder.len(), 2);
}

/// A program that names the types of the rest by all their paths.
#[tokio::test]
async fn the_rest_is_tokio_s() {
    let turn = std::sync::Arc::new(tokio::sync::Notify::new());
    let sum = std::sync::Arc::new(tokio::sync::Mutex::new(0));
    let (answer, asked) = tokio::sync::oneshot::channel::<u32>();
    let seats = tokio::sync::Semaphore::new(1);
    let _seat: tokio::sync::SemaphorePermit<'_> = seats.try_acquire().unwrap();
    let notified: tokio::sync::futures::Notified<'_> = turn.notified();
    let task: tokio::task::JoinHandle<()> = tokio::spawn({
        let (turn, sum) = (turn.clone(), sum.clone());
        async move {
            *sum.lock().await += asked.await.unwrap();
            turn.notify_waiters();
        }
    });
    answer.send(3).unwrap();
    notified.await;
    task.await.unwrap();
    assert_eq!(*sum.lock().await, 3);
}
