//! Tests that fail. Above each stands why, as whoever planted it knows it, and then lines that its
//! report has to have, in this order, and after `!` what none of its lines may have. `@NAME` stands
//! for the line of a source whose end is `// @NAME`, and `N ms` for any time.

use std::panic::catch_unwind;
use std::time::Duration;
use tokio::sync::broadcast::{self, error::TryRecvError};
use tokio::sync::watch;
use yovanelum::{Recorder, name, named};

// The publisher panicked. Its sender was the last, so the auditor is told Closed.
// | failed: a_publisher_panics at @closed: assertion `left == right` failed, left: Err(Closed), right: Ok(72); call 4 was orders.try_recv(): Closed
// | error: `publisher` panicked at @panic: the feed broke; its sender was the last (call 2), so `audit` was told Closed (call 4)
#[test]
fn a_publisher_panics() {
    let recorder = Recorder::for_test("a_publisher_panics");
    let (orders, mut audit) = broadcast::channel(4);
    name!(recorder, &orders, "orders");
    name!(recorder, &audit, "audit");
    let publisher = std::thread::Builder::new().name("publisher".into());
    let publisher = publisher.spawn(move || {
        orders.send(71).unwrap();
        panic!("the feed broke"); // @panic
    });
    let _ = publisher.unwrap().join();
    audit.try_recv().unwrap();
    assert_eq!(audit.try_recv(), Ok(72)); // @closed
}

// `shop::publish` dropped the last sender. Nobody misses what the other receiver lost.
// | failed: a_closed_channel at @told: assertion `left == right` failed, left: Err(Closed), right: Ok(72); call 7 was orders.recv(): Closed
// | error: `audit` was told Closed, since a_closed_channel dropped the last sender of `orders` (call 5)
// | note: call 5, the drop that closed it
// |   --> src/lib.rs:@the drop
// | and 1 receiver lost 2 values
#[tokio::test]
async fn a_closed_channel() {
    let recorder = Recorder::for_test("a_closed_channel");
    let (orders, mut audit) = broadcast::channel(1);
    let (prices, _keep) = broadcast::channel(1);
    name!(recorder, &orders, "orders");
    name!(recorder, &audit, "audit");
    for price in 1..=3 {
        prices.send(price).unwrap();
    }
    shop::publish(orders);
    audit.recv().await.unwrap();
    assert_eq!(audit.recv().await, Ok(72)); // @told
}

// The task lost an order, and its assertion failed. The test joined it.
// | failed: a_task_is_joined at @join: called `Result::unwrap()` on an `Err` value: JoinError::Panic(Id(N), ...)
// | error: `auditor` panicked at @task: assertion `left == right` failed, left: Err(Lagged(1)), right: Ok(71)
// | warning: `auditor` lost 1 of 2 values of `orders` (capacity 1)
#[tokio::test]
async fn a_task_is_joined() {
    let recorder = Recorder::for_test("a_task_is_joined");
    let (orders, mut audit) = broadcast::channel(1);
    name!(recorder, &orders, "orders");
    for id in [71, 72] {
        orders.send(id).unwrap();
    }
    let auditor = named("auditor", async move {
        assert_eq!(audit.recv().await, Ok(71)); // @task
    });
    tokio::spawn(auditor).await.unwrap(); // @join
}

// Worker 5 waits for a second change, which nobody makes. The unwinding test drops the sender.
// | failed: a_worker_of_a_pool_hangs at @elapsed: a worker hangs: Elapsed(())
// | warning: `shutdown.changed` of worker 5 waits: `shutdown` wasn't changed since call 10, which `changed` marked as seen (call .*)
// |   --> tests/causes.rs:@second
// |   senders: sender 0 of @made (last used at call 10 by a_worker_of_a_pool_hangs)
#[tokio::test(flavor = "multi_thread", worker_threads = 2)]
async fn a_worker_of_a_pool_hangs() {
    let recorder = Recorder::for_test("a_worker_of_a_pool_hangs");
    let (shutdown, reader) = watch::channel(false); // @made
    name!(recorder, &shutdown, "shutdown");
    let mut workers = vec![];
    for number in 0..8 {
        let mut reader = reader.clone();
        let work = async move {
            reader.changed().await.unwrap();
            if number == 5 {
                reader.changed().await.unwrap(); // @second
            }
        };
        workers.push(tokio::spawn(named(&format!("worker {number}"), work)));
    }
    drop(reader);
    shutdown.send(true).unwrap();
    for worker in workers {
        let ended = tokio::time::timeout(Duration::from_secs(3), worker);
        ended.await.expect("a worker hangs").unwrap(); // @elapsed
    }
}

// The publisher has a clone of the sender, and the test forgot to drop its own.
// | failed: a_clone_is_forgotten at @never: the collector never ends: Elapsed(())
// | warning: `orders.recv` of collector waits: nothing was sent to `orders` since call 2
// |   senders: sender 0 of @forgotten (last used at call 1 by a_clone_is_forgotten)
#[tokio::test]
async fn a_clone_is_forgotten() {
    let recorder = Recorder::for_test("a_clone_is_forgotten");
    let (orders, mut all) = broadcast::channel(4); // @forgotten
    name!(recorder, &orders, "orders");
    let clone = orders.clone();
    let publisher = named("publisher", async move { clone.send(71).unwrap() });
    tokio::spawn(publisher).await.unwrap();
    let collector = named(
        "collector",
        async move { while all.recv().await.is_ok() {} },
    );
    let ended = tokio::time::timeout(Duration::from_millis(100), tokio::spawn(collector));
    ended.await.expect("the collector never ends").unwrap(); // @never
    drop(orders);
}

// Nothing was sent while it waited.
// | failed: a_receive_times_out at @over: no order: Elapsed(())
// | error: `orders.recv` of a_receive_times_out waited N ms and was dropped: nothing was sent to `orders` since call 1
#[tokio::test]
async fn a_receive_times_out() {
    let recorder = Recorder::for_test("a_receive_times_out");
    let (orders, mut audit) = broadcast::channel(4);
    name!(recorder, &orders, "orders");
    orders.send(71).unwrap();
    audit.recv().await.unwrap();
    let received = tokio::time::timeout(Duration::from_millis(50), audit.recv());
    received.await.expect("no order").unwrap(); // @over
}

// A drop of the unwinding test catches a panic of its own. What failed is the test's panic.
// | failed: a_drop_catches_a_panic at @real: the till is short
#[test]
fn a_drop_catches_a_panic() {
    struct Till;
    impl Drop for Till {
        fn drop(&mut self) {
            let _ = catch_unwind(|| panic!("it is caught within the drop"));
        }
    }
    let _recorder = Recorder::for_test("a_drop_catches_a_panic");
    let (orders, _audit) = broadcast::channel(4);
    let _till = Till;
    orders.send(71).unwrap();
    panic!("the till is short"); // @real
}

// A panic was caught. What failed is the one after it.
// | failed: a_panic_was_caught_before at @second panic: the till is short
#[test]
fn a_panic_was_caught_before() {
    let _recorder = Recorder::for_test("a_panic_was_caught_before");
    let (orders, _audit) = broadcast::channel(4);
    orders.send(71).unwrap();
    let _ = catch_unwind(|| panic!("it is caught"));
    panic!("the till is short"); // @second panic
}

// The receiver was created after order 71 was sent.
// | failed: a_receiver_is_late at @late: assertion `left == right` failed, left: Ok(72), right: Ok(71); call 4 was orders.recv(): its 2nd value
// | error: `late` got its 2nd value of `orders`, which a_receiver_is_late sent (call 3); late was created after its 1st value was sent (call 1)
#[tokio::test]
async fn a_receiver_is_late() {
    let recorder = Recorder::for_test("a_receiver_is_late");
    let (orders, _keep) = broadcast::channel(4);
    orders.send(71).unwrap();
    let mut late = orders.subscribe();
    name!(recorder, &orders, "orders");
    name!(recorder, &late, "late");
    orders.send(72).unwrap();
    assert_eq!(late.recv().await, Ok(71)); // @late
}

// Three sends reached nobody, before the audit subscribed.
// | failed: sends_reach_nobody at @empty: assertion `left == right` failed, left: Err(Empty), right: Ok(71); call 6 was orders.try_recv(): Empty
// | error: `audit` found nothing: three sends reached nobody, before audit was created (call 5)
// |   call 2   orders.send(its 1st value)   sends_reach_nobody  tests/causes.rs:@unheard   reached nobody
// |   call 4   orders.send(its 3rd value)   sends_reach_nobody  tests/causes.rs:@unheard   the last that reached nobody
// |   call 5   orders.subscribe()           sends_reach_nobody  tests/causes.rs:@first   created it
#[test]
fn sends_reach_nobody() {
    let recorder = Recorder::for_test("sends_reach_nobody");
    let (orders, _) = broadcast::channel(4);
    for id in [71, 72, 73] {
        let _ = orders.send(id); // @unheard
    }
    let mut audit = orders.subscribe(); // @first
    name!(recorder, &orders, "orders");
    name!(recorder, &audit, "audit");
    assert_eq!(audit.try_recv(), Ok(71)); // @empty
}

// `resubscribe` begins behind what its original has not read.
// | failed: a_resubscribe_skips at @skipped: assertion `left == right` failed, left: Err(Empty), right: Ok(71); call 4 was orders.try_recv(): Empty
// | error: `again` found nothing: resubscribe skipped two values that audit had not read (call 3)
#[test]
fn a_resubscribe_skips() {
    let recorder = Recorder::for_test("a_resubscribe_skips");
    let (orders, audit) = broadcast::channel(4);
    orders.send(71).unwrap();
    orders.send(72).unwrap();
    let mut again = audit.resubscribe();
    name!(recorder, &orders, "orders");
    name!(recorder, &audit, "audit");
    name!(recorder, &again, "again");
    assert_eq!(again.try_recv(), Ok(71)); // @skipped
}

// The same, and another value came since.
// | failed: a_resubscribe_skips_to_a_value at @jumped: assertion `left == right` failed, left: Ok(73), right: Ok(71); call 5 was orders.try_recv(): its 3rd value
// | error: `again` got its 3rd value of `orders`, which a_resubscribe_skips_to_a_value sent (call 4); resubscribe skipped two values that audit had not read (call 3)
#[test]
fn a_resubscribe_skips_to_a_value() {
    let recorder = Recorder::for_test("a_resubscribe_skips_to_a_value");
    let (orders, audit) = broadcast::channel(4);
    orders.send(71).unwrap();
    orders.send(72).unwrap();
    let mut again = audit.resubscribe();
    name!(recorder, &orders, "orders");
    name!(recorder, &audit, "audit");
    name!(recorder, &again, "again");
    orders.send(73).unwrap();
    assert_eq!(again.try_recv(), Ok(71)); // @jumped
}

// tokio rounds a capacity of three up to four.
// | failed: a_capacity_is_rounded_up at @retained: assertion `left == right` failed, left: Ok(71), right: Err(Lagged(1)); call 5 was orders.try_recv(): its 1st value
// | error: `audit` got its 1st value of `orders`, which a_capacity_is_rounded_up sent (call 1): capacity 3 is rounded up to 4, so it was still retained
#[test]
fn a_capacity_is_rounded_up() {
    let recorder = Recorder::for_test("a_capacity_is_rounded_up");
    let (orders, mut audit) = broadcast::channel(3);
    name!(recorder, &orders, "orders");
    name!(recorder, &audit, "audit");
    for id in 71..=74 {
        orders.send(id).unwrap();
    }
    assert_eq!(audit.try_recv(), Err(TryRecvError::Lagged(1))); // @retained
}

// `borrow` marks nothing as seen.
// | failed: a_look_marks_nothing at @unmarked: assertion failed: !reader.has_changed().unwrap(); call 3 was state.has_changed(): true
// | error: `reader` has not marked the last change of `state`, which a_look_marks_nothing made (call 1): it looked at it (call 2), which marks nothing
#[test]
fn a_look_marks_nothing() {
    let recorder = Recorder::for_test("a_look_marks_nothing");
    let (state, reader) = watch::channel(0);
    name!(recorder, &state, "state");
    name!(recorder, &reader, "reader");
    state.send(1).unwrap();
    assert_eq!(*reader.borrow(), 1);
    assert!(!reader.has_changed().unwrap()); // @unmarked
}

// So `changed` returns once more.
// | failed: changed_returns_again at @same: assertion `left == right` failed, left: 1, right: 2; call 4 was state.borrow(): its 2nd value
// | error: `reader` got its 2nd value of `state`, which changed_returns_again sent (call 1): reader had looked at it (call 2), which marks nothing, so `changed` returned again (call 3)
#[tokio::test]
async fn changed_returns_again() {
    let recorder = Recorder::for_test("changed_returns_again");
    let (state, mut reader) = watch::channel(0);
    name!(recorder, &state, "state");
    name!(recorder, &reader, "reader");
    state.send(1).unwrap();
    assert_eq!(*reader.borrow(), 1);
    reader.changed().await.unwrap();
    assert_eq!(*reader.borrow(), 2); // @same
}

// Nobody has marked the change.
// | failed: a_change_is_not_marked at @new: assertion failed: !reader.has_changed().unwrap(); call 2 was state.has_changed(): true
// | error: `reader` has not marked the last change of `state`, which a_change_is_not_marked made (call 1)
#[test]
fn a_change_is_not_marked() {
    let recorder = Recorder::for_test("a_change_is_not_marked");
    let (state, reader) = watch::channel(0);
    name!(recorder, &state, "state");
    name!(recorder, &reader, "reader");
    state.send_replace(1);
    assert!(!reader.has_changed().unwrap()); // @new
}

// `borrow_and_update` has marked it.
// | failed: a_change_is_marked at @old: assertion failed: reader.has_changed().unwrap(); call 3 was state.has_changed(): false
// | error: `reader` has marked the last change of `state`, which a_change_is_marked made (call 1), by `borrow_and_update` (call 2)
#[test]
fn a_change_is_marked() {
    let recorder = Recorder::for_test("a_change_is_marked");
    let (state, mut reader) = watch::channel(0);
    name!(recorder, &state, "state");
    name!(recorder, &reader, "reader");
    state.send(1).unwrap();
    reader.borrow_and_update();
    assert!(reader.has_changed().unwrap()); // @old
}

// The watch had its value from the second change on.
// | failed: a_watch_was_changed_again at @newer: assertion `left == right` failed, left: 5, right: 1; call 3 was state.borrow(): its 3rd value
// | error: `reader` got its 3rd value of `state`, which a_watch_was_changed_again sent (call 2): it was not changed since
#[test]
fn a_watch_was_changed_again() {
    let recorder = Recorder::for_test("a_watch_was_changed_again");
    let (state, reader) = watch::channel(0);
    name!(recorder, &state, "state");
    name!(recorder, &reader, "reader");
    state.send(1).unwrap();
    state.send_modify(|state| *state += 4);
    assert_eq!(*reader.borrow(), 1); // @newer
}

// The audit has received one of two orders.
// | failed: a_value_is_left at @length: assertion `left == right` failed, left: 1, right: 2; call 4 was orders.len(): 1
// | error: `audit` has one value of `orders` left, from its 2nd value on: its last receive was call 3
#[test]
fn a_value_is_left() {
    let recorder = Recorder::for_test("a_value_is_left");
    let (orders, mut audit) = broadcast::channel(4);
    name!(recorder, &orders, "orders");
    name!(recorder, &audit, "audit");
    orders.send(71).unwrap();
    orders.send(72).unwrap();
    audit.try_recv().unwrap();
    assert_eq!(audit.len(), 2); // @length
}

// The slow receiver has read nothing.
// | failed: a_channel_is_not_empty at @retains: assertion failed: orders.is_empty(); call 5 was orders.len(): 1
// | error: `orders` has one value left that `slow` has not received
#[test]
fn a_channel_is_not_empty() {
    let recorder = Recorder::for_test("a_channel_is_not_empty");
    let (orders, mut audit) = broadcast::channel(4);
    let slow = orders.subscribe();
    name!(recorder, &orders, "orders");
    name!(recorder, &slow, "slow");
    orders.send(71).unwrap();
    audit.try_recv().unwrap();
    assert_eq!(audit.try_recv(), Err(TryRecvError::Empty));
    assert!(orders.is_empty()); // @retains
}

// The second reader was dropped.
// | failed: a_reader_is_gone at @count: assertion `left == right` failed, left: 1, right: 2; call 3 was state.receiver_count(): 1
// | error: `state` has one receiver: `reader`; receiver 2 (created at @cloned) was dropped before (call 2)
#[test]
fn a_reader_is_gone() {
    let recorder = Recorder::for_test("a_reader_is_gone");
    let (state, reader) = watch::channel(0);
    name!(recorder, &state, "state");
    name!(recorder, &reader, "reader");
    drop(reader.clone()); // @cloned
    assert_eq!(state.receiver_count(), 2); // @count
}

// Both gaps are of the audit, and the test counts what it received.
// | failed: two_gaps at @gaps: assertion `left == right` failed, left: 2, right: 8; call 13 was orders.try_recv(): Empty
// | error: `audit` lost 6 of 8 values of `orders` (capacity 1) in two gaps; the last, of 4 values:
#[test]
fn two_gaps() {
    let recorder = Recorder::for_test("two_gaps");
    let (orders, mut audit) = broadcast::channel(1);
    name!(recorder, &orders, "orders");
    name!(recorder, &audit, "audit");
    let mut received = 0;
    for count in [3, 5] {
        for id in 0..count {
            orders.send(id).unwrap();
        }
        if let Err(TryRecvError::Lagged(_)) = audit.try_recv() {
            received += usize::from(audit.try_recv().is_ok());
        }
    }
    let _ = audit.try_recv();
    assert_eq!(received, 8); // @gaps
}

/// Whether a receiver has read all, as a helper of tests asks.
fn is_up_to_date(audit: &broadcast::Receiver<u32>) -> bool {
    audit.is_empty() // @helper
}

// The helper was told that one order is left. Its call isn't on the line that failed.
// | failed: a_helper_asks at @asserted: assertion failed: is_up_to_date(&audit)
// | note: `audit` has one value of `orders` left, from its 2nd value on: its last receive was call 3
// |   call 4   orders.len()                 a_helper_asks  tests/causes.rs:@helper   returned 1
#[test]
fn a_helper_asks() {
    let recorder = Recorder::for_test("a_helper_asks");
    let (orders, mut audit) = broadcast::channel(4);
    name!(recorder, &orders, "orders");
    name!(recorder, &audit, "audit");
    orders.send(71).unwrap();
    orders.send(72).unwrap();
    audit.try_recv().unwrap();
    assert!(is_up_to_date(&audit)); // @asserted
}

// `let _` dropped the second receiver before the send.
// | failed: a_send_reaches_one at @reached: assertion `left == right` failed, left: 1, right: 2; call 3 was orders.send(its 1st value): 1
// | error: a send of `orders` reached one receiver: `audit`; receiver 2 (created at @ignored) was dropped before (call 2)
#[test]
fn a_send_reaches_one() {
    let recorder = Recorder::for_test("a_send_reaches_one");
    let (orders, audit) = broadcast::channel(4);
    name!(recorder, &orders, "orders");
    name!(recorder, &audit, "audit");
    let _ = orders.subscribe(); // @ignored
    assert_eq!(orders.send(71).unwrap(), 2); // @reached
}

// Each worker was told of the shutdown by `changed`, and ended. Nobody has to look at `()`.
// | failed: a_signal_is_heard at @signal: the till is short
// | yovanelum: no value was lost in .* calls on 1 channel
// ! error:
// ! never
#[tokio::test]
async fn a_signal_is_heard() {
    let _recorder = Recorder::for_test("a_signal_is_heard");
    let (shutdown, reader) = watch::channel(());
    let workers = [1, 2, 3].map(|number| {
        let mut reader = reader.clone();
        let work = async move { reader.changed().await.unwrap() };
        tokio::spawn(named(&format!("worker {number}"), work))
    });
    drop(reader);
    shutdown.send(()).unwrap();
    for worker in workers {
        worker.await.unwrap();
    }
    panic!("the till is short"); // @signal
}

// The audit's task was aborted before it could be told that the channel closed.
// | failed: an_aborted_task_is_told_nothing at @aborted: the till is short
// ! error:
#[tokio::test]
async fn an_aborted_task_is_told_nothing() {
    let _recorder = Recorder::for_test("an_aborted_task_is_told_nothing");
    let (orders, mut audit) = broadcast::channel::<u32>(4);
    let audit = tokio::spawn(named("audit", async move { audit.recv().await }));
    tokio::task::yield_now().await;
    drop(orders);
    audit.abort();
    assert!(audit.await.unwrap_err().is_cancelled());
    panic!("the till is short"); // @aborted
}

// The audit has an order to read before it can be told that the channel closed.
// | failed: a_close_is_not_reached_yet at @unread: the till is short
// | warning: `orders` closed, and its receiver has not read that far
// ! error:
// ! not told
#[test]
fn a_close_is_not_reached_yet() {
    let recorder = Recorder::for_test("a_close_is_not_reached_yet");
    let (orders, mut audit) = broadcast::channel(4);
    name!(recorder, &orders, "orders");
    name!(recorder, &audit, "audit");
    orders.send(71).unwrap();
    orders.send(72).unwrap();
    drop(orders);
    audit.try_recv().unwrap();
    panic!("the till is short"); // @unread
}

// There was no receiver when the orders were sent.
// | failed: orders_reach_nobody at @alone: the till is short.*
// | error: two sends of `orders` reached nobody.*
// ! no value was lost
#[test]
fn orders_reach_nobody() {
    let recorder = Recorder::for_test("orders_reach_nobody");
    let (orders, _) = broadcast::channel(4);
    name!(recorder, &orders, "orders");
    for id in [71, 72] {
        let _ = orders.send(id);
    }
    panic!("the till is short"); // @alone
}

// The monitor goes on after its gap, and nobody reads the log. The gap of the audit fails the test.
// | failed: a_gap_was_handled at @the gap: called `Result::unwrap()` on an `Err` value: Lagged(1); call 8 was orders.try_recv(): Lagged(1)
// | error: `audit` lost 1 of 3 values of `orders` (capacity 2)
// ! error: `monitor`
// ! error: `log`
#[test]
fn a_gap_was_handled() {
    let recorder = Recorder::for_test("a_gap_was_handled");
    let (orders, log) = broadcast::channel(2);
    let (mut monitor, mut audit) = (orders.subscribe(), orders.subscribe());
    name!(recorder, &orders, "orders");
    name!(recorder, &log, "log");
    name!(recorder, &monitor, "monitor");
    name!(recorder, &audit, "audit");
    for id in [71, 72, 73] {
        orders.send(id).unwrap();
    }
    while let Err(TryRecvError::Lagged(_)) = monitor.try_recv() {}
    audit.try_recv().unwrap(); // @the gap
}
