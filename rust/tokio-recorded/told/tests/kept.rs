//! Tests that fail by one channel, beside a receiver that only keeps another channel open. Above
//! each stands why, in the form of `causes.rs`.

use tokio::sync::{broadcast, watch};
use yovanelum::{Recorder, name};

// The total is that of two orders, since nobody added the third. The reader looked once, after both
// changes. `_keep` reads nothing: what it lost, nobody misses.
// | failed: a_kept_broadcast_lost_values at @total: assertion `left == right` failed, left: 3, right: 6; call 6 was total.borrow(): its 3rd value
// | error: `reader` got its 3rd value of `total`, which a_kept_broadcast_lost_values sent (call 5): it was not changed since
// | and 1 receiver lost 2 values, 1 watch's reader never learned of 1 change
// ! error: receiver
// ! _keep
#[test]
fn a_kept_broadcast_lost_values() {
    let recorder = Recorder::for_test("a_kept_broadcast_lost_values");
    let (orders, _keep) = broadcast::channel(1);
    let (total, reader) = watch::channel(0);
    name!(recorder, &orders, "orders");
    name!(recorder, &total, "total");
    name!(recorder, &reader, "reader");
    for price in 1..=3 {
        orders.send(price).unwrap();
    }
    for price in 1..=2 {
        total.send_modify(|total| *total += price);
    }
    assert_eq!(*reader.borrow(), 6); // @total
}

// The display looked after the first of three changes of the state, and not again. `_keep` never
// looks at the prices, which changed more often.
// | failed: a_kept_watch_was_changed at @shown: assertion `left == right` failed, left: 1, right: 3
// | error: `display` never learned of 2 of 3 changes of `state`
// | and 1 more watch's reader never learned of 5 changes
// ! of `prices`
// ! _keep
#[test]
fn a_kept_watch_was_changed() {
    let recorder = Recorder::for_test("a_kept_watch_was_changed");
    let (prices, _keep) = watch::channel(0);
    let (state, display) = watch::channel(0);
    name!(recorder, &prices, "prices");
    name!(recorder, &state, "state");
    name!(recorder, &display, "display");
    for price in 1..=5 {
        prices.send(price).unwrap();
    }
    state.send(1).unwrap();
    let shown = *display.borrow();
    state.send(2).unwrap();
    state.send(3).unwrap();
    assert_eq!(shown, 3); // @shown
}
