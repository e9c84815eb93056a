//! Bugs of threads.

use super::{joined, spawn, work};
use std::sync::{Arc, Mutex};
use yovanelum::broadcast::error::{RecvError, TryRecvError};
use yovanelum::{block_on, broadcast, watch};

/// An audit subscribes in its own thread, while the shop still reads its stock.
pub fn late_audit() {
    let bus = broadcast::Sender::new(16);
    let (of_audit, of_shop) = (bus.clone(), bus);
    let audit = spawn("audit", move || {
        let mut rx = of_audit.subscribe();
        drop(of_audit);
        let mut got = vec![];
        while let Ok(order) = rx.blocking_recv() {
            got.push(order);
        }
        got
    });
    let shop = spawn("shop", move || {
        work(2000);
        for order in 1..=3 {
            let _ = of_shop.send(order);
        }
    });
    joined(shop);
    assert_eq!(joined(audit), [1, 2, 3]);
}

/// A reader of a configuration applies what it sees, and then marks it as seen. What comes in
/// between is never applied.
pub fn lost_update() {
    let (config, mut rx) = watch::channel(0);
    let applied = Arc::new(Mutex::new(0));
    let of_reader = applied.clone();
    let reader = spawn("reader", move || {
        block_on(async {
            while rx.changed().await.is_ok() {
                let version = *rx.borrow();
                *of_reader.lock().unwrap() = version;
                rx.mark_unchanged();
            }
        })
    });
    let admin = spawn("admin", move || {
        for version in 1..=4 {
            config.send(version).unwrap();
            work(300);
        }
    });
    joined(admin);
    joined(reader);
    assert_eq!(*applied.lock().unwrap(), 4);
}

/// A dispatcher asks whether a worker is there, and then sends. The worker leaves after its second
/// job.
pub fn check_then_send() {
    let (jobs, mut rx) = broadcast::channel(8);
    let worker = spawn("worker", move || {
        let mut done = 0;
        while done < 2 {
            done += usize::from(rx.blocking_recv().is_ok());
        }
    });
    let dispatcher = spawn("dispatcher", move || {
        for job in 0..50 {
            if jobs.receiver_count() == 0 {
                break;
            }
            jobs.send(job).expect("a worker is there");
            work(100);
        }
    });
    joined(worker);
    joined(dispatcher);
}

/// A handler writes each event to a database, far faster than events come.
pub fn slow_handler() {
    let (bus, mut rx) = broadcast::channel(4);
    let handler = spawn("handler", move || {
        loop {
            match rx.blocking_recv() {
                Ok(_) => work(20),
                Err(RecvError::Closed) => return,
                Err(error) => panic!("{error:?}"),
            }
        }
    });
    let source = spawn("source", move || {
        for event in 0..12 {
            bus.send(event).unwrap();
            work(500);
        }
    });
    joined(source);
    joined(handler);
}

/// One source of 40 events, and a capacity of 32: the handler must be kept back through 33 sends.
pub fn lag_of_33() {
    let (bus, mut rx) = broadcast::channel(32);
    let handler = spawn("handler", move || {
        loop {
            match rx.blocking_recv() {
                Ok(_) => (),
                Err(RecvError::Closed) => return,
                Err(error) => panic!("{error:?}"),
            }
        }
    });
    let source = spawn("source", move || {
        for event in 0..40 {
            bus.send(event).unwrap();
            work(60);
        }
    });
    joined(source);
    joined(handler);
}

/// A worker looks for a job and, where there is none, whether it is to stop. The last job and the
/// stop come between both looks.
pub fn last_job_at_stop() {
    let (jobs, mut rx) = broadcast::channel(8);
    let (stop, stopped) = watch::channel(false);
    let worker = spawn("worker", move || {
        let mut done = 0;
        while done < 3 {
            match rx.try_recv() {
                Ok(_) => done += 1,
                Err(TryRecvError::Empty) if *stopped.borrow() => break,
                Err(TryRecvError::Closed) => break,
                Err(_) => work(50),
            }
        }
        done
    });
    let desk = spawn("desk", move || {
        for job in 0..3 {
            work(300);
            let _ = jobs.send(job);
        }
        let _ = stop.send(true);
        jobs
    });
    let _jobs = joined(desk);
    assert_eq!(joined(worker), 3);
}

/// Two limits in two watches. A reader sees them of two versions.
pub fn torn_limits() {
    let (low, low_rx) = watch::channel(0);
    let (high, high_rx) = watch::channel(10);
    let _kept = (low_rx.clone(), high_rx.clone());
    let admin = spawn("admin", move || {
        for version in 1..=3 {
            work(200);
            high.send(10 + version * 20).unwrap();
            low.send(version * 20).unwrap();
        }
        (low, high)
    });
    let meter = spawn("meter", move || {
        for _ in 0..3 {
            let high = *high_rx.borrow();
            let low = *low_rx.borrow();
            assert!(low <= high, "from {low} to {high}");
            work(230);
        }
    });
    let _kept = joined(admin);
    joined(meter);
}

/// Two workers claim a lease that both see as free.
pub fn double_claim() {
    let (lease, _rx) = watch::channel(None);
    let lease = Arc::new(lease);
    let claims = Arc::new(Mutex::new(0));
    let workers = ["ann", "bob"].map(|name| {
        let (lease, claims) = (lease.clone(), claims.clone());
        spawn(name, move || {
            work(if name == "ann" { 10 } else { 1500 });
            if lease.borrow().is_none() {
                lease.send(Some(name)).unwrap();
                *claims.lock().unwrap() += 1;
            }
        })
    });
    let _ = workers.map(joined);
    assert_eq!(*claims.lock().unwrap(), 1);
}

/// A reader that lags begins again, and never sees the last event, `closing`.
pub fn resubscribe_gap() {
    let (bus, mut rx) = broadcast::channel(4);
    let reader = spawn("reader", move || {
        let mut last = String::new();
        loop {
            match rx.blocking_recv() {
                Ok(event) => last = event,
                Err(RecvError::Closed) => return last,
                Err(RecvError::Lagged(_)) => rx = rx.resubscribe(),
            }
            work(10);
        }
    });
    let source = spawn("source", move || {
        for number in 0..7 {
            bus.send(format!("price {number}")).unwrap();
            work(300);
        }
        bus.send("closing".into()).unwrap();
    });
    joined(source);
    assert_eq!(joined(reader), "closing");
}

/// Four stages: each raises the state by one if the stage before it has, and later lowers it to 0
/// again. It fails only if all four overlap in one order.
pub fn four_in_order() {
    let (state, _rx) = watch::channel(0u32);
    let state = Arc::new(state);
    let stages = [("d", 3), ("c", 2), ("b", 1), ("a", 0)].map(|(name, number)| {
        let state = state.clone();
        spawn(name, move || {
            for _ in 0..2 {
                state.send_if_modified(|now| {
                    let is_mine = *now == number;
                    *now += u32::from(is_mine);
                    is_mine
                });
                work(30);
                state.send_if_modified(|now| {
                    if *now < 4 && *now == number + 1 {
                        *now = 0;
                    }
                    true
                });
                work(40);
            }
        })
    });
    let _ = stages.map(joined);
    assert_ne!(*state.borrow(), 4);
}

/// Two writers must take turns eight times for the bug.
pub fn eight_turns() {
    let (bus, mut rx) = broadcast::channel(64);
    let writers = ["a", "b"].map(|name| {
        let bus = bus.clone();
        spawn(name, move || {
            for _ in 0..4 {
                bus.send(name).unwrap();
                work(50);
            }
        })
    });
    let _ = writers.map(joined);
    drop(bus);
    let mut got = vec![];
    while let Ok(name) = rx.try_recv() {
        got.push(name);
    }
    assert!(got.windows(2).any(|two| two[0] == two[1]), "{got:?}");
}

/// A client looks, and marks what it saw as seen before it waits. What came in between is never
/// told, so it waits forever.
pub fn waits_forever() {
    let (state, mut rx) = watch::channel("starting");
    let client = spawn("client", move || {
        block_on(async {
            while *rx.borrow() != "ready" {
                rx.mark_unchanged();
                rx.changed().await.unwrap();
            }
        })
    });
    let server = spawn("server", move || {
        work(1000);
        state.send("ready").unwrap();
        state
    });
    let _state = joined(server);
    joined(client);
}
