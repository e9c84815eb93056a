//! Bugs of threads that share more than channels.

use super::{joined, spawn, work};
use std::sync::{Arc, Mutex, mpsc};
use yovanelum::{broadcast, watch};

/// A book keeper takes a copy of the balance and then subscribes to what is booked. What is booked
/// in between is in neither.
pub fn copy_then_subscribe() {
    let (balance, seen) = watch::channel(0);
    let bookings = broadcast::Sender::new(16);
    let of_keeper = bookings.clone();
    let keeper = spawn("keeper", move || {
        let mut sum = *seen.borrow();
        let mut booked = of_keeper.subscribe();
        drop(of_keeper);
        while let Ok(amount) = booked.blocking_recv() {
            sum += amount;
        }
        sum
    });
    let bank = spawn("bank", move || {
        work(1500);
        for amount in [5, 7] {
            balance.send_modify(|balance| *balance += amount);
            let _ = bookings.send(amount);
            work(200);
        }
        balance
    });
    let balance = joined(bank);
    assert_eq!(joined(keeper), *balance.borrow());
}

/// Two clerks read a number, lock the book, and write the next one. Both may have read the same.
pub fn read_before_lock() {
    let (number, rx) = watch::channel(0);
    let book = Arc::new(Mutex::new(number));
    let clerks = ["ann", "bob"].map(|name| {
        let (book, rx) = (book.clone(), rx.clone());
        spawn(name, move || {
            work(if name == "ann" { 5 } else { 800 });
            let last = *rx.borrow();
            let number = book.lock().unwrap();
            number.send(last + 1).unwrap();
        })
    });
    let _ = clerks.map(joined);
    assert_eq!(*rx.borrow(), 2);
}

/// A plugin holds a weak sender, and takes it for granted that the host still runs.
pub fn weak_plugin() {
    let (host, _rx) = broadcast::channel(8);
    let weak = host.downgrade();
    let (loaded, is_loaded) = mpsc::channel();
    let plugin = spawn("plugin", move || {
        loaded.send(()).unwrap();
        work(20);
        let host = weak.upgrade().expect("the host runs");
        let _ = host.send("plugin");
    });
    let of_host = spawn("host", move || {
        is_loaded.recv().unwrap();
        work(1200);
        let _ = host.send("host");
    });
    joined(of_host);
    joined(plugin);
}

/// A coordinator starts when there are two receivers. One of the workers has a second one for a
/// while, so the other may miss the start.
pub fn start_by_count() {
    let bus = broadcast::Sender::new(4);
    let workers = ["first", "second"].map(|name| {
        let bus = bus.clone();
        spawn(name, move || {
            work(if name == "first" { 10 } else { 300 });
            let probe = bus.subscribe();
            let mut rx = bus.subscribe();
            drop((probe, bus));
            rx.blocking_recv() == Ok("start")
        })
    });
    let coordinator = spawn("coordinator", move || {
        work(2000);
        while bus.receiver_count() < 2 {
            work(100);
        }
        bus.send("start").unwrap();
    });
    joined(coordinator);
    assert_eq!(workers.map(joined), [true, true]);
}

/// A collector leaves the bus when it has the three answers of a `std` channel. A worker answers
/// before it sends.
pub fn leaves_after_answers() {
    let (bus, rx) = broadcast::channel::<u32>(8);
    let (answer, answers) = mpsc::channel();
    let workers = [1, 2, 3].map(|number| {
        let (bus, answer) = (bus.clone(), answer.clone());
        spawn(&format!("worker {number}"), move || {
            work(u64::from(number) * 200);
            answer.send(number).unwrap();
            bus.send(number).expect("the collector listens");
        })
    });
    let collector = spawn("collector", move || {
        for _ in 0..3 {
            answers.recv().unwrap();
        }
        work(1500);
        drop(rx);
    });
    let _ = workers.map(joined);
    joined(collector);
}
