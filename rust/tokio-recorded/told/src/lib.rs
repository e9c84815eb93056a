//! A shop whose tests fail, each for a reason that stands above it.

use tokio::sync::broadcast;

/// Publishes the last order, and drops the last sender.
pub fn publish(orders: broadcast::Sender<u32>) {
    orders.send(71).unwrap();
    drop(orders); // @the drop
}
