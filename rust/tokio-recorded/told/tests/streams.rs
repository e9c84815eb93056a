//! Tests that fail by streams of tokio-stream, which receive in its sources. Above each stands why,
//! in the form of `causes.rs`, and after `=` the line that created the stream's receiver, which the
//! log of SARIF has in place of a path in cargo's registry.

use std::time::Duration;
use tokio::sync::{broadcast, watch};
use tokio_stream::StreamExt;
use tokio_stream::wrappers::{BroadcastStream, WatchStream};
use yovanelum::{Recorder, name};

// The channel holds two orders, and three were sent before the stream was polled.
// | failed: a_stream_lags at @lag: assertion `left == right` failed, left: Some(Err(Lagged(1))), right: Some(Ok(71)); call 6 was orders.recv(): Lagged(1)
// | error: receiver 2 (created at @lag stream) lost 1 of 3 values of `orders` (capacity 2)
// = tests/streams.rs:@lag stream
#[tokio::test]
async fn a_stream_lags() {
    let recorder = Recorder::for_test("a_stream_lags");
    let (orders, _) = broadcast::channel(2);
    name!(recorder, &orders, "orders");
    let mut audit = BroadcastStream::new(orders.subscribe()); // @lag stream
    for id in [71, 72, 73] {
        orders.send(id).unwrap();
    }
    assert_eq!(audit.next().await, Some(Ok(71))); // @lag
}

// The state changed twice before the stream looked, and a watch has its last value only.
// | failed: a_watch_stream_skips at @skip: assertion `left == right` failed, left: Some(2), right: Some(1)
// | error: receiver 2 (created at @skip stream) never learned of 1 of 2 changes of `state`
// = tests/streams.rs:@skip stream
#[tokio::test]
async fn a_watch_stream_skips() {
    let recorder = Recorder::for_test("a_watch_stream_skips");
    let (state, _) = watch::channel(0);
    name!(recorder, &state, "state");
    let mut states = WatchStream::new(state.subscribe()); // @skip stream
    state.send_replace(1);
    state.send_replace(2);
    assert_eq!(states.next().await, Some(1)); // @skip
}

// Nobody sends a second order. The stream keeps its receive, so that waits still.
// | failed: a_stream_waits at @over: no order: Elapsed(())
// | warning: `orders.recv` of a_stream_waits waits: nothing was sent to `orders` since call 1
// = tests/streams.rs:@wait stream
#[tokio::test]
async fn a_stream_waits() {
    let recorder = Recorder::for_test("a_stream_waits");
    let (orders, audit) = broadcast::channel(4); // @wait stream
    name!(recorder, &orders, "orders");
    let mut audit = BroadcastStream::new(audit);
    orders.send(71).unwrap();
    assert_eq!(audit.next().await, Some(Ok(71)));
    let order = tokio::time::timeout(Duration::from_millis(50), audit.next());
    order.await.expect("no order").unwrap().unwrap(); // @over
}
