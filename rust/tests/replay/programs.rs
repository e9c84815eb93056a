//! Programs whose results depend on the order of their calls.

use crate::support::Random;
use std::future::{Future, poll_fn};
use std::panic;
use std::pin::pin;
use std::sync::{Arc, Mutex};
use std::task::Poll;
use std::thread::{self, JoinHandle};
use std::time::Duration;
use yovanelum::broadcast::error::{RecvError, TryRecvError};
use yovanelum::{Recorder, block_on, broadcast, watch};

type Outcome = Result<(), String>;

/// Pauses of a thread, which differ from seed to seed.
struct Pauses(Random);

impl Pauses {
    fn new(seed: u64, thread: u64) -> Pauses {
        Pauses(Random::new(seed * 64 + thread))
    }

    fn pause(&mut self) {
        match self.0.below(4) {
            0 => {}
            1 => thread::yield_now(),
            n => thread::sleep(Duration::from_micros(
                20 * n as u64 + self.0.below(200) as u64,
            )),
        }
    }
}

fn spawn<R: Send + 'static>(
    name: &str,
    seed: u64,
    run: impl FnOnce(&mut Pauses) -> R + Send + 'static,
) -> JoinHandle<R> {
    let number = name.bytes().map(u64::from).sum();
    let mut pauses = Pauses::new(seed, number);
    let thread = thread::Builder::new().name(name.to_string());
    let run = move || {
        pauses.pause();
        run(&mut pauses)
    };
    thread.spawn(run).unwrap()
}

fn join<R>(threads: impl IntoIterator<Item = JoinHandle<R>>) -> Vec<R> {
    let ended = threads.into_iter().map(|thread| thread.join().unwrap());
    ended.collect()
}

fn check<T: PartialEq + std::fmt::Debug>(found: T, wanted: T) -> Outcome {
    if found == wanted {
        Ok(())
    } else {
        Err(format!("{found:?} and not {wanted:?}"))
    }
}

fn all_of<T: Clone>(rx: &mut broadcast::Receiver<T>) -> Vec<Result<T, RecvError>> {
    let mut all = vec![];
    loop {
        match rx.blocking_recv() {
            Err(RecvError::Closed) => return all,
            received => all.push(received),
        }
    }
}

/// Events are published while a screen subscribes.
pub fn a_subscriber_comes_late(recorder: &Recorder, seed: u64) -> Outcome {
    let _entered = recorder.enter();
    let (events, _log) = broadcast::channel(8);
    let bus = events.clone();
    let publisher = spawn("publisher", seed, move |pauses| {
        for event in 0..3 {
            pauses.pause();
            events.send(event).unwrap();
        }
    });
    let screen = spawn("screen", seed, move |pauses| {
        pauses.pause();
        let mut screen = bus.subscribe();
        drop(bus);
        all_of(&mut screen)
    });
    publisher.join().unwrap();
    check(screen.join().unwrap(), vec![Ok(0), Ok(1), Ok(2)])
}

/// A plugin upgrades its weak sender while the application ends.
pub fn a_sender_is_dropped_before_the_upgrade(recorder: &Recorder, seed: u64) -> Outcome {
    let _entered = recorder.enter();
    let (bus, mut audit) = broadcast::channel(4);
    let weak = bus.downgrade();
    let plugin = spawn("plugin", seed, move |pauses| {
        pauses.pause();
        weak.upgrade().map(|bus| bus.send("loaded").unwrap())
    });
    let application = spawn("application", seed, move |pauses| {
        pauses.pause();
        drop(bus);
    });
    application.join().unwrap();
    check(
        (plugin.join().unwrap(), all_of(&mut audit)),
        (Some(1), vec![Ok("loaded")]),
    )
}

/// Two senders overwrite what a slow receiver has yet to receive.
pub fn a_receiver_of_two_senders_lags(recorder: &Recorder, seed: u64) -> Outcome {
    let _entered = recorder.enter();
    let (prices, mut chart) = broadcast::channel(4);
    let mut senders = vec![];
    for (number, name) in ["london", "tokyo"].into_iter().enumerate() {
        let prices = prices.clone();
        senders.push(spawn(name, seed, move |pauses| {
            for price in 0..4 {
                pauses.pause();
                let _ = prices.send(10 * number + price);
            }
        }));
    }
    drop(prices);
    let chart = spawn("chart", seed, move |pauses| {
        let mut seen = vec![];
        loop {
            pauses.pause();
            match chart.blocking_recv() {
                Err(RecvError::Closed) => return seen,
                received => seen.push(received),
            }
        }
    });
    join(senders);
    let seen = chart.join().unwrap();
    if seen.iter().any(Result::is_err) {
        Err(format!("{seen:?}"))
    } else {
        Ok(())
    }
}

/// A worker reads its setting while it is written.
pub fn a_setting_is_read_before_it_is_written(recorder: &Recorder, seed: u64) -> Outcome {
    let _entered = recorder.enter();
    let (setting, reader) = watch::channel(0);
    let writer = spawn("writer", seed, move |pauses| {
        for value in 1..=3 {
            pauses.pause();
            setting.send_replace(value);
        }
    });
    let reader = spawn("reader", seed, move |pauses| {
        pauses.pause();
        pauses.pause();
        pauses.pause();
        *reader.borrow()
    });
    writer.join().unwrap();
    check(reader.join().unwrap(), 3)
}

/// Bidders with names send by one sender that they share.
pub fn bidders_share_a_sender(recorder: &Recorder, seed: u64) -> Outcome {
    let _entered = recorder.enter();
    let (bids, mut auction) = broadcast::channel(8);
    let bids = Arc::new(bids);
    let bidders = ["Ann", "Bob", "Cem"].map(|name| {
        let bids = bids.clone();
        spawn(name, seed, move |pauses| {
            for bid in 0..2 {
                pauses.pause();
                bids.send((name, bid)).unwrap();
            }
        })
    });
    drop(bids);
    join(bidders);
    let bids: Vec<_> = all_of(&mut auction)
        .into_iter()
        .map(Result::unwrap)
        .collect();
    if bids[0].0 == "Cem" || bids[5].0 == "Ann" {
        Err(format!("{bids:?}"))
    } else {
        Ok(())
    }
}

/// A change is logged from within the closure that makes it.
pub fn a_closure_that_changes_a_watch_sends_elsewhere(recorder: &Recorder, seed: u64) -> Outcome {
    let _entered = recorder.enter();
    let (stock, _shelf) = watch::channel(10);
    let (log, mut lines) = broadcast::channel(16);
    let clerks = [("buyer", 5), ("seller", -7)].map(|(name, by)| {
        let (stock, log) = (stock.clone(), log.clone());
        spawn(name, seed, move |pauses| {
            for _ in 0..2 {
                pauses.pause();
                stock.send_modify(|stock| {
                    *stock += by;
                    log.send((name, *stock)).unwrap();
                });
            }
        })
    });
    drop(log);
    join(clerks);
    let lines: Vec<_> = all_of(&mut lines).into_iter().map(Result::unwrap).collect();
    if lines.iter().any(|(_, stock)| *stock < 0) {
        Err(format!("{lines:?}"))
    } else {
        Ok(())
    }
}

/// A listener panics, and a sender counts who listens.
pub fn a_receiver_is_dropped_by_a_panic(recorder: &Recorder, seed: u64) -> Outcome {
    let _entered = recorder.enter();
    let (bus, mut listener) = broadcast::channel(4);
    let sender = spawn("sender", seed, move |pauses| {
        let mut counts = vec![];
        for event in 0..3 {
            pauses.pause();
            counts.push(bus.send(event).ok());
            pauses.pause();
            counts.push(Some(bus.receiver_count()));
        }
        counts
    });
    let listener = spawn("listener", seed, move |pauses| {
        pauses.pause();
        let _ = listener.blocking_recv();
        pauses.pause();
        // As a panic, but for the message on standard error. It drops the receiver.
        panic::resume_unwind(Box::new("the listener fails"));
    });
    assert!(listener.join().is_err());
    let counts = sender.join().unwrap();
    check(counts.into_iter().flatten().sum(), 2)
}

/// A worker waits for a state that may be gone before it looks.
pub fn a_worker_waits_for_a_state(recorder: &Recorder, seed: u64) -> Outcome {
    let _entered = recorder.enter();
    let (state, mut rx) = watch::channel("loading");
    let owner = spawn("owner", seed, move |pauses| {
        for now in ["ready", "busy", "ready", "stopped"] {
            pauses.pause();
            state.send_replace(now);
        }
        block_on(state.closed());
    });
    let worker = spawn("worker", seed, move |pauses| {
        let mut seen = vec![];
        for _ in 0..2 {
            pauses.pause();
            let found = block_on(rx.wait_for(|state| *state == "ready" || *state == "stopped"));
            seen.push(*found.unwrap());
        }
        seen
    });
    owner.join().unwrap();
    check(worker.join().unwrap(), vec!["ready", "stopped"])
}

/// Two services make their own channels, and hand them out.
pub fn two_threads_make_a_channel_each(recorder: &Recorder, seed: u64) -> Outcome {
    let told = Arc::new(Mutex::new(vec![]));
    let services = ["mailer", "backup"].map(|name| {
        let (told, enter) = (told.clone(), recorder.on_thread_start());
        spawn(name, seed, move |pauses| {
            enter();
            pauses.pause();
            let (jobs, mut todo) = broadcast::channel(2);
            let feeder = spawn(&format!("{name} feeder"), seed, move |pauses| {
                for job in 0..4 {
                    pauses.pause();
                    jobs.send(job).unwrap();
                }
            });
            pauses.pause();
            let all = all_of(&mut todo);
            feeder.join().unwrap();
            told.lock().unwrap().push((name, all));
        })
    });
    join(services);
    let mut told = told.lock().unwrap().clone();
    told.sort_by_key(|(name, _)| *name);
    if told.iter().all(|(_, all)| all.len() == 4) {
        Ok(())
    } else {
        Err(format!("{told:?}"))
    }
}

/// Polls two receives at once, and drops both when one has ended.
async fn first_of(
    orders: &mut broadcast::Receiver<u32>,
    refunds: &mut broadcast::Receiver<u32>,
) -> Result<u32, RecvError> {
    let (mut order, mut refund) = (pin!(orders.recv()), pin!(refunds.recv()));
    poll_fn(|context| match order.as_mut().poll(context) {
        Poll::Ready(order) => Poll::Ready(order),
        Poll::Pending => refund.as_mut().poll(context),
    })
    .await
}

/// A clerk takes what comes first of two channels. The other receive is cancelled.
pub fn a_choice_of_two_channels_is_cancelled(recorder: &Recorder, seed: u64) -> Outcome {
    let _entered = recorder.enter();
    let (orders, mut order_rx) = broadcast::channel(8);
    let (refunds, mut refund_rx) = broadcast::channel(8);
    let senders = [("shop", orders, 100), ("desk", refunds, 200)].map(|(name, tx, from)| {
        spawn(name, seed, move |pauses| {
            for number in from..from + 3 {
                pauses.pause();
                tx.send(number).unwrap();
            }
            tx
        })
    });
    let clerk = spawn("clerk", seed, move |pauses| {
        let mut done = vec![];
        for _ in 0..6 {
            pauses.pause();
            done.push(block_on(first_of(&mut order_rx, &mut refund_rx)).unwrap());
        }
        assert_eq!(order_rx.try_recv(), Err(TryRecvError::Empty));
        done
    });
    let done = clerk.join().unwrap();
    drop(join(senders));
    if done[0] < 200 && done[5] >= 200 {
        Ok(())
    } else {
        Err(format!("{done:?}"))
    }
}

/// Owners of one sender end, and the last one closes the channel.
pub fn the_last_owner_drops_the_sender(recorder: &Recorder, seed: u64) -> Outcome {
    let _entered = recorder.enter();
    let (bus, mut log) = broadcast::channel(8);
    let bus = Arc::new(bus);
    let owners = ["first", "second"].map(|name| {
        let bus = bus.clone();
        spawn(name, seed, move |pauses| {
            pauses.pause();
            bus.send(name).unwrap();
        })
    });
    drop(bus);
    let log = spawn("log", seed, move |pauses| {
        let mut lines = vec![];
        loop {
            pauses.pause();
            match log.try_recv() {
                Ok(line) => lines.push(line),
                Err(TryRecvError::Closed) => return lines,
                Err(_) => lines.push("nothing"),
            }
        }
    });
    join(owners);
    let lines = log.join().unwrap();
    if lines.first() == Some(&"first") {
        Ok(())
    } else {
        Err(format!("{lines:?}"))
    }
}
