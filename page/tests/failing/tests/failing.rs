//! Tests that fail, each in another way. A comment at the end of a line is how `failing.py` finds the line's number.

use shop::{Order, poll, publish, receive, start};
use std::cell::Cell;
use std::time::Duration;
use yovanelum::{Recorder, block_on, broadcast, named, set_task_id, watch};

#[test]
fn no_price_is_missing() {
    let recorder = Recorder::for_test("no_price_is_missing");
    let (prices, mut auditor) = broadcast::channel(2); // prices are opened
    recorder.name(&prices, "prices").name(&auditor, "auditor");
    recorder.show(&prices, |price| format!("{price} EUR"));
    publish(prices, 101..=105);
    assert_eq!(auditor.try_recv(), Ok(101)); // the auditor is told
}

#[test]
fn the_log_is_read() {
    let recorder = Recorder::for_test("the_log_is_read");
    let (jobs, mut log) = broadcast::channel(1);
    let idle = jobs.subscribe();
    recorder
        .name(&jobs, "jobs")
        .name(&log, "log")
        .name(&idle, "idle");
    recorder.show(&jobs, |job| format!("job {job}"));
    jobs.send(1).unwrap();
    let read = Vec::from_iter(log.try_recv());
    for job in 2..=4 {
        jobs.send(job).unwrap(); // a job is sent
    }
    drop(log);
    // It is never dropped.
    std::mem::forget(idle);
    assert_eq!(read, [1, 2, 3, 4]); // the jobs are counted
}

// The channel retains one value, so two of the three were overwritten: no receive is needed for that.
#[test]
fn three_jobs_are_left() {
    let recorder = Recorder::for_test("three_jobs_are_left");
    let (jobs, slow) = broadcast::channel(1);
    recorder.name(&jobs, "jobs").name(&slow, "slow");
    recorder.show(&jobs, |job| format!("job {job}"));
    for job in 1..=3 {
        jobs.send(job).unwrap(); // a job is left
    }
    assert_eq!(jobs.len(), 3); // the length is asked
}

#[test]
fn the_orders_are_whole() {
    let recorder = Recorder::for_test("the_orders_are_whole");
    let (metrics, held) = broadcast::channel(4);
    let (orders, mut desk) = broadcast::channel(2);
    recorder.name(&metrics, "metrics").name(&held, "held");
    recorder.name(&orders, "orders").name(&desk, "desk");
    recorder.show(&orders, |order| format!("order {order}"));
    for order in 71..=73 {
        (0..5).for_each(|_| drop(metrics.send(order))); // a metric is sent
        orders.send(order).unwrap(); // an order is sent
    }
    assert_eq!(desk.try_recv(), Ok(71)); // the desk is told
}

#[test]
fn each_state_is_seen() {
    let recorder = Recorder::for_test("each_state_is_seen");
    let (state, reader) = watch::channel("loading");
    recorder.name(&state, "state").name(&reader, "reader");
    recorder.show(&state, |state| format!("{state}!"));
    for next in ["ready", "busy", "full"] {
        state.send(next).unwrap(); // a state is sent
    }
    assert_eq!(poll(reader).join().unwrap(), "ready");
}

#[test]
fn the_sum_is_right() {
    let recorder = Recorder::for_test("the_sum_is_right");
    let (bus, mut reader) = broadcast::channel(4);
    recorder.name(&bus, "bus").name(&reader, "reader");
    recorder.show(&bus, |number| format!("number {number}"));
    // Dropped before the reader, while the test unwinds.
    let bus = bus;
    bus.send(2).unwrap(); // a number is sent
    assert_eq!(reader.try_recv(), Ok(2)); // a number is received
    assert_eq!(1 + 1, 3);
}

#[test]
fn the_state_is_ready() {
    let recorder = Recorder::for_test("the_state_is_ready");
    let (state, mut reader) = watch::channel("loading"); // the state is made
    recorder.name(&state, "state").name(&reader, "reader");
    recorder.show(&state, |state| format!("{state}!"));
    state.send("busy").unwrap(); // the state is busy
    let worker = start("worker", move || {
        block_on(reader.wait_for(|state| *state == "ready")).is_ok() // the worker waits
    });
    while recorder.waiting().is_empty() {
        std::thread::yield_now();
    }
    let _recorder = recorder.watchdog(Duration::from_millis(1));
    assert!(worker.join().unwrap());
}

thread_local! {
    static TASK: Cell<Option<u64>> = const { Cell::new(None) };
}

#[test]
fn the_second_task_gets_the_first_order() {
    let recorder = Recorder::for_test("the_second_task_gets_the_first_order");
    let (orders, mut first) = broadcast::channel(2);
    let mut second = orders.subscribe();
    recorder
        .name(&orders, "orders")
        .name(&first, "first")
        .name(&second, "second");
    recorder.show(&orders, |order| format!("order {order}"));
    // A task without a name, told apart by its number.
    set_task_id(|| TASK.get());
    let clerk = start("runtime", move || {
        TASK.set(Some(7));
        block_on(async { (71..=73).for_each(|order| drop(orders.send(order))) }); // a task sends
        TASK.set(None);
    }); // the runtime ends
    clerk.join().unwrap();
    let reader = start("reader", move || block_on(receive("till", &mut first)));
    reader.join().unwrap();
    assert_eq!(block_on(receive("audit", &mut second)), Some(71));
}

#[test]
fn the_notes_are_whole() {
    let recorder = Recorder::for_test("the_notes_are_whole");
    let (orders, mut desk) = broadcast::channel(1);
    recorder
        .name(&orders, "👩‍🚀 orders 🦀")
        .name(&desk, "<b>desk</b> &amp; \"co\"");
    recorder.show(&orders, |order: &Order| format!("{order:#?} 👩‍🚀🦀"));
    for id in 1..=3 {
        let note = "🦀 \\ 'note' ".repeat(200);
        orders.send(Order { id, note }).unwrap(); // a note is sent
    }
    assert_eq!(desk.try_recv().map(|order| order.id), Ok(1)); // the note is missing
}

#[test]
fn forty_screens_are_up_to_date() {
    let recorder = Recorder::for_test("forty_screens_are_up_to_date");
    let prices = broadcast::Sender::new(2);
    recorder
        .name(&prices, "prices")
        .show(&prices, |price| format!("{price} EUR"));
    let mut screens: Vec<_> = (0..40).map(|_| prices.subscribe()).collect();
    for (number, screen) in screens.iter_mut().enumerate() {
        recorder.name(screen, &format!("screen {number}"));
    }
    prices.send(1).unwrap();
    for screen in &mut screens {
        assert_eq!(screen.try_recv(), Ok(1));
    }
    // The first four receive nothing from here on.
    for price in 2..=5 {
        prices.send(price).unwrap(); // forty screens get a price
        for screen in &mut screens[4..] {
            assert_eq!(screen.try_recv(), Ok(price));
        }
    }
    assert_eq!(screens[3].try_recv(), Ok(2)); // the fourth screen is told
}

#[test]
fn both_clerks_get_the_first_order() {
    let recorder = Recorder::for_test("both_clerks_get_the_first_order");
    let runtime = tokio::runtime::Builder::new_multi_thread()
        .worker_threads(2)
        .on_thread_start(recorder.on_thread_start())
        .build()
        .unwrap();
    let (orders, mut first) = broadcast::channel(2);
    let mut second = orders.subscribe();
    recorder
        .name(&orders, "orders")
        .show(&orders, |order| format!("order {order}"));
    let shop = named("shop", async move {
        for order in 71..=73 {
            orders.send(order).unwrap(); // the shop sends
        }
    });
    let till = named("till", async move { first.recv().await }); // the till is told
    let audit = named("audit", async move {
        let order = second.recv().await; // the audit is told
        assert_eq!(order, Ok(71)); // the audit asserts
    });
    runtime.block_on(async {
        tokio::spawn(shop).await.unwrap();
        tokio::spawn(till).await.unwrap().unwrap_err();
        tokio::spawn(audit).await.unwrap();
    });
}

#[test]
fn the_last_tick_arrives() {
    let recorder = Recorder::for_test("the_last_tick_arrives");
    let (ticks, mut reader) = broadcast::channel(2);
    recorder.name(&ticks, "ticks").name(&reader, "reader");
    for tick in 0..540_000_u32 {
        ticks.send(tick).unwrap();
        assert_eq!(reader.try_recv(), Ok(tick));
    }
    (0..4).for_each(|tick| drop(ticks.send(tick))); // four ticks are sent
    assert_eq!(reader.try_recv(), Ok(0)); // the last tick is received
}

#[test]
fn the_last_bus_is_read() {
    let recorder = Recorder::for_test("the_last_bus_is_read");
    let _others: Vec<_> = (0..64).map(|_| broadcast::channel::<u32>(1)).collect(); // all but one are created
    let (bus, mut reader) = broadcast::channel(1);
    recorder.name(&bus, "bus");
    (0..3).for_each(|number| drop(bus.send(number)));
    assert_eq!(reader.try_recv(), Ok(0));
}
