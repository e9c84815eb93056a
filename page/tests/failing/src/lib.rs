//! A shop's event bus, whose tests fail. `page/tests/failing.py` makes a package of it, and reads the page that each test leaves.

use std::thread::{self, JoinHandle};
use yovanelum::broadcast::{Receiver, Sender};
use yovanelum::{named, watch};

/// An order, whose text has several lines.
#[derive(Clone, Debug)]
pub struct Order {
    pub id: u32,
    pub note: String,
}

/// Sends these prices from a thread, and waits until all are sent.
pub fn publish(prices: Sender<u32>, all: std::ops::RangeInclusive<u32>) {
    let ticker = start("ticker", move || {
        for price in all {
            prices.send(price).unwrap(); // a price is sent
        }
    }); // the ticker ends
    ticker.join().unwrap();
}

/// Looks at a state from a thread as programs do that poll: by `borrow`.
pub fn poll(state: watch::Receiver<&'static str>) -> JoinHandle<&'static str> {
    start("screen", move || *state.borrow()) // the state is looked at
}

/// Receives as a task of this name.
pub async fn receive<T: Clone>(name: &str, orders: &mut Receiver<T>) -> Option<T> {
    named(name, async { orders.recv().await.ok() }).await // an order is received
}

/// Starts a thread of this name.
pub fn start<T: Send + 'static>(
    name: &str,
    work: impl FnOnce() -> T + Send + 'static,
) -> JoinHandle<T> {
    thread::Builder::new()
        .name(name.into())
        .spawn(work)
        .unwrap()
}
