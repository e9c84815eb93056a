//! Right programs with a limit of time, which no order brings past it. The limit is half a minute,
//! or as many milliseconds as the variable `LIMIT` says.

use super::{ended, on_one_thread, on_two_workers};
use std::future::Future;
use std::time::Duration;
use tokio::task::yield_now;
use tokio::time::{Instant, interval, sleep, timeout, timeout_at};
use yovanelum::{Recorder, broadcast, named, watch};

/// How often each of two players plays.
const HOPS: u32 = 20;

fn limit() -> Duration {
    let text = std::env::var("LIMIT");
    Duration::from_millis(text.map_or(30_000, |text| text.parse().unwrap()))
}

/// Two players, each of whom waits for the other one's number.
async fn played() {
    let (ping, mut pings) = watch::channel(0);
    let (pong, mut pongs) = broadcast::channel(4);
    let second = tokio::spawn(named("second", async move {
        for hop in 1..=HOPS {
            pings.wait_for(|ping| *ping == hop).await.unwrap();
            pong.send(hop).unwrap();
        }
    }));
    let first = tokio::spawn(named("first", async move {
        for hop in 1..=HOPS {
            ping.send(hop).unwrap();
            assert_eq!(pongs.recv().await, Ok(hop));
        }
    }));
    ended(first).await;
    ended(second).await;
}

async fn within(limit: Duration, future: impl Future<Output = ()>) {
    timeout(limit, future).await.expect("within the limit");
}

/// A limit of the whole game.
pub fn limit_of_a_game() {
    on_one_thread(within(limit(), played()));
}

/// The same on two workers.
pub fn limit_on_workers() {
    on_two_workers(within(limit(), played()));
}

/// A limit by a sleep beside the game.
pub fn limit_by_a_sleep() {
    on_one_thread(async {
        tokio::select! {
            () = played() => (),
            () = sleep(limit()) => panic!("within the limit"),
        }
    });
}

/// A limit that is put off by each value.
pub fn limit_put_off() {
    on_one_thread(async {
        let (bus, mut rx) = broadcast::channel(4);
        let sender = tokio::spawn(named("sender", async move {
            for value in 0..HOPS {
                bus.send(value).unwrap();
                yield_now().await;
                yield_now().await;
            }
        }));
        let deadline = sleep(limit());
        tokio::pin!(deadline);
        loop {
            tokio::select! {
                value = rx.recv() => match value {
                    Ok(_) | Err(broadcast::error::RecvError::Lagged(_)) => {
                        deadline.as_mut().reset(Instant::now() + limit());
                    }
                    Err(broadcast::error::RecvError::Closed) => break,
                },
                () = &mut deadline => panic!("within the limit"),
            }
        }
        ended(sender).await;
    });
}

/// One deadline of many waits, each of which begins anew.
pub fn deadline_of_many() {
    on_one_thread(async {
        let (count, mut rx) = watch::channel(0);
        let counter = tokio::spawn(named("counter", async move {
            for number in 1..=HOPS {
                count.send(number).unwrap();
                yield_now().await;
            }
            count
        }));
        let deadline = Instant::now() + limit();
        while *rx.borrow_and_update() < HOPS {
            let changed = timeout_at(deadline, rx.changed()).await;
            changed.expect("within the limit").unwrap();
        }
        let _count = ended(counter).await;
    });
}

/// A game within a limit, while another task ticks each 20 milliseconds.
pub fn limit_beside_ticks() {
    on_one_thread(async {
        let (tick, _ticks) = watch::channel(0);
        let ticker = tokio::spawn(named("ticker", async move {
            let mut ticks = interval(Duration::from_millis(20));
            loop {
                ticks.tick().await;
                tick.send_modify(|count| *count += 1);
            }
        }));
        within(limit(), played()).await;
        ticker.abort();
    });
}

/// A server stops. Its connections end within the limit, after some milliseconds each.
pub fn connections_end_in_time() {
    on_one_thread(async {
        let (stop, _) = watch::channel(());
        let (work, _) = broadcast::channel(1);
        for number in 1..=3 {
            let (mut stopped, mut jobs) = (stop.subscribe(), work.subscribe());
            let connection = async move {
                sleep(Duration::from_millis(10 * number)).await;
                let _ = jobs.recv().await;
                let _ = stopped.changed().await;
            };
            tokio::spawn(named(&format!("connection {number}"), connection));
        }
        work.send(()).unwrap();
        stop.send(()).unwrap();
        tokio::select! {
            () = stop.closed() => (),
            () = sleep(limit()) => panic!("within the limit"),
        }
    });
}

/// The last of three connections takes 150 milliseconds: three quarters of a limit of 200.
pub fn connections_take_three_quarters() {
    on_one_thread(async {
        let (stop, _) = watch::channel(());
        for number in 1..=3 {
            let mut stopped = stop.subscribe();
            let connection = async move {
                sleep(Duration::from_millis(50 * number)).await;
                let _ = stopped.changed().await;
            };
            tokio::spawn(named(&format!("connection {number}"), connection));
        }
        stop.send(()).unwrap();
        tokio::select! {
            () = stop.closed() => (),
            () = sleep(limit()) => panic!("within the limit"),
        }
    });
}

/// A test on workers that were there before its recorder: it sleeps, while a task receives.
pub fn sleeps_beside_a_receive() {
    let mut runtime = tokio::runtime::Builder::new_multi_thread();
    let runtime = runtime.worker_threads(2).enable_all().build().unwrap();
    runtime.block_on(async {
        let _recorder = Recorder::for_test("sleeps_beside_a_receive");
        let (bus, mut rx) = broadcast::channel(4);
        let receiver = tokio::spawn(named("receiver", async move { rx.recv().await }));
        sleep(Duration::from_millis(800)).await;
        bus.send(1).unwrap();
        assert_eq!(receiver.await.unwrap(), Ok(1));
    });
}

/// The same with a limit of two seconds, which ends.
pub fn waits_for_a_limit() {
    let mut runtime = tokio::runtime::Builder::new_multi_thread();
    let runtime = runtime.worker_threads(2).enable_all().build().unwrap();
    runtime.block_on(async {
        let _recorder = Recorder::for_test("waits_for_a_limit");
        let (_bus, mut rx) = broadcast::channel::<u32>(4);
        let receiver = tokio::spawn(named("receiver", async move {
            timeout(Duration::from_secs(2), rx.recv()).await
        }));
        assert!(receiver.await.unwrap().is_err());
    });
}

/// A limit that is made in a runtime ends where it is polled outside of it.
pub fn limit_outside_of_its_runtime() {
    let mut runtime = tokio::runtime::Builder::new_multi_thread();
    let runtime = runtime.worker_threads(1).enable_all().build().unwrap();
    let (_bus, mut rx) = broadcast::channel::<u32>(4);
    let entered = runtime.enter();
    let limited = timeout(Duration::from_millis(20), rx.recv());
    drop(entered);
    assert!(yovanelum::block_on(limited).is_err());
}
