//! Right programs whose pairs of steps can be counted by hand.

use super::{joined, spawn};
use yovanelum::broadcast;

/// Three threads with two calls each, one of which is the drop of the handle. The test's thread
/// makes one call before it starts them. Each order of the three threads may come.
pub fn two_sends_and_a_look() {
    let (of_ann, mut rx) = broadcast::channel(4);
    let of_bob = of_ann.clone();
    let ann = spawn("ann", move || drop(of_ann.send(1)));
    let bob = spawn("bob", move || drop(of_bob.send(2)));
    let cara = spawn("cara", move || drop(rx.try_recv()));
    joined(ann);
    joined(bob);
    joined(cara);
}

/// One thread waits for what the other one sends, and drops its receiver after that.
pub fn one_waits() {
    let (of_ann, mut rx) = broadcast::channel(4);
    let ann = spawn("ann", move || drop(of_ann.send(1)));
    let bob = spawn("bob", move || drop(rx.blocking_recv()));
    joined(ann);
    joined(bob);
}

/// Each thread has a channel of its own.
pub fn nobody_shares() {
    let threads = ["ann", "bob"].map(|name| {
        let (tx, mut rx) = broadcast::channel(4);
        spawn(name, move || {
            tx.send(1).unwrap();
            rx.try_recv().unwrap();
        })
    });
    let _ = threads.map(joined);
}
