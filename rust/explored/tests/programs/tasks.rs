//! Bugs of tasks, whose order is always the same where nobody explores it.

use super::{ended, on_one_thread, on_two_workers};
use std::collections::BTreeMap;
use std::sync::{Arc, Mutex};
use std::time::Duration;
use tokio::sync::{Notify, mpsc, oneshot};
use tokio::task::yield_now;
use tokio::time::sleep;
use yovanelum::broadcast::error::RecvError;
use yovanelum::{broadcast, named, watch};

/// A router forwards orders to the bus. The clerk announces the end of the day there by itself once
/// it has sent all orders.
pub fn overtaken_router() {
    on_one_thread(async {
        let (desk, mut orders) = mpsc::channel(8);
        let bus = broadcast::Sender::new(16);
        let mut audit = bus.subscribe();
        let (of_router, of_clerk) = (bus.clone(), bus);
        let router = tokio::spawn(named("router", async move {
            while let Some(id) = orders.recv().await {
                of_router.send(id).unwrap();
            }
        }));
        let clerk = tokio::spawn(named("clerk", async move {
            for id in 1..=3 {
                desk.send(id).await.unwrap();
                yield_now().await;
            }
            yield_now().await;
            of_clerk.send(0).unwrap();
        }));
        let audit = tokio::spawn(named("audit", async move {
            let mut got = vec![];
            while let Ok(id) = audit.recv().await {
                got.push(id);
            }
            got
        }));
        ended(clerk).await;
        ended(router).await;
        assert_eq!(ended(audit).await, [1, 2, 3, 0]);
    });
}

/// A cache is filled after a miss, while the entry is evicted.
pub fn old_price() {
    on_one_thread(async {
        let (version, rx) = watch::channel(1);
        let (evict, mut evicted) = broadcast::channel(4);
        let cache = Arc::new(Mutex::new(BTreeMap::new()));
        let (of_filler, of_evictor) = (cache.clone(), cache.clone());
        let filler = tokio::spawn(named("filler", async move {
            let found = *rx.borrow();
            yield_now().await;
            of_filler.lock().unwrap().insert("price", found);
            rx
        }));
        let evictor = tokio::spawn(named("evictor", async move {
            while evicted.recv().await.is_ok() {
                of_evictor.lock().unwrap().remove("price");
            }
        }));
        let writer = tokio::spawn(named("writer", async move {
            for _ in 0..4 {
                yield_now().await;
            }
            version.send(2).unwrap();
            evict.send(()).unwrap();
            version
        }));
        let _rx = ended(filler).await;
        let _version = ended(writer).await;
        ended(evictor).await;
        let found = cache.lock().unwrap().get("price").copied();
        assert!(found != Some(1), "an old price stays");
    });
}

/// A heart beats each 20 milliseconds. Its monitor has room for two.
pub fn heart_and_monitor() {
    on_one_thread(async {
        let (beat, mut beats) = broadcast::channel(2);
        let heart = tokio::spawn(named("heart", async move {
            for number in 0..4 {
                sleep(Duration::from_millis(20)).await;
                beat.send(number).unwrap();
            }
        }));
        let monitor = tokio::spawn(named("monitor", async move {
            loop {
                match beats.recv().await {
                    Ok(_) => (),
                    Err(RecvError::Closed) => return,
                    Err(error) => panic!("{error:?}"),
                }
            }
        }));
        ended(heart).await;
        ended(monitor).await;
    });
}

/// A configuration is sent every two milliseconds. Its reader takes a moment, and then marks what
/// it saw as seen.
pub fn config_by_timer() {
    on_one_thread(async {
        let (config, mut rx) = watch::channel(0);
        let reader = tokio::spawn(named("reader", async move {
            let mut applied = 0;
            while rx.changed().await.is_ok() {
                applied = *rx.borrow();
                yield_now().await;
                rx.mark_unchanged();
            }
            applied
        }));
        let admin = tokio::spawn(named("admin", async move {
            for version in 1..=3 {
                config.send(version).unwrap();
                sleep(Duration::from_millis(2)).await;
            }
        }));
        ended(admin).await;
        assert_eq!(ended(reader).await, 3);
    });
}

/// A worker looks whether it may begin, says that it waits, and waits. Who is told between those is
/// told by nobody.
pub fn told_too_early() {
    on_one_thread(async {
        let (ready, is_ready) = watch::channel(false);
        let (log, mut lines) = mpsc::unbounded_channel();
        let told = Arc::new(Notify::new());
        let of_worker = told.clone();
        let worker = tokio::spawn(named("worker", async move {
            if !*is_ready.borrow() {
                log.send("waits").unwrap();
                yield_now().await;
                of_worker.notified().await;
            }
            is_ready
        }));
        let setup = tokio::spawn(named("setup", async move {
            for _ in 0..6 {
                yield_now().await;
            }
            ready.send(true).unwrap();
            told.notify_waiters();
            ready
        }));
        let _ready = ended(setup).await;
        ended(worker).await;
        assert!(lines.recv().await.is_none_or(|line| line == "waits"));
    });
}

/// Two clerks read a number, acquire tokio's lock, and write the next one.
pub fn read_before_await() {
    on_one_thread(async {
        let (number, rx) = watch::channel(0);
        let book = Arc::new(tokio::sync::Mutex::new(number));
        let clerk = |name: &'static str, rounds: usize| {
            let (book, rx) = (book.clone(), rx.clone());
            tokio::spawn(named(name, async move {
                for _ in 0..rounds {
                    yield_now().await;
                }
                let last = *rx.borrow();
                let number = book.lock().await;
                yield_now().await;
                number.send(last + 1).unwrap();
            }))
        };
        let (ann, bob) = (clerk("ann", 0), clerk("bob", 5));
        ended(ann).await;
        ended(bob).await;
        assert_eq!(*rx.borrow(), 2);
    });
}

/// A client asks, and subscribes to the news once it has the answer. The server sends the first
/// news after it.
pub fn subscribes_after_answer() {
    on_one_thread(async {
        let (ask, mut asked) = mpsc::channel::<oneshot::Sender<&str>>(1);
        let news = broadcast::Sender::new(4);
        let of_client = news.clone();
        let server = tokio::spawn(named("server", async move {
            let answer = asked.recv().await.unwrap();
            answer.send("welcome").unwrap();
            for _ in 0..3 {
                yield_now().await;
            }
            let _ = news.send("first");
        }));
        let client = tokio::spawn(named("client", async move {
            let (answer, answered) = oneshot::channel();
            ask.send(answer).await.unwrap();
            assert_eq!(answered.await, Ok("welcome"));
            let mut news = of_client.subscribe();
            drop(of_client);
            news.recv().await
        }));
        ended(server).await;
        assert_eq!(ended(client).await, Ok("first"));
    });
}

/// A worker prefers the stop to its jobs. The one that is still there when it is stopped is lost.
pub fn job_behind_stop() {
    on_one_thread(async {
        let (jobs, mut inbox) = mpsc::channel(4);
        let (stop, mut stopped) = watch::channel(false);
        let worker = tokio::spawn(named("worker", async move {
            let mut done = 0;
            loop {
                tokio::select! {
                    biased;
                    _ = stopped.changed() => return done,
                    job = inbox.recv() => done += usize::from(job.is_some()),
                }
            }
        }));
        let chief = tokio::spawn(named("chief", async move {
            for job in 0..2 {
                jobs.send(job).await.unwrap();
                for _ in 0..3 {
                    yield_now().await;
                }
            }
            stop.send(true).unwrap();
            (jobs, stop)
        }));
        let _kept = ended(chief).await;
        assert_eq!(ended(worker).await, 2);
    });
}

/// The results of a set of tasks come on a bus. The first is taken to be that of the first task.
pub fn first_of_a_set() {
    on_one_thread(async {
        let (results, mut first) = broadcast::channel(8);
        let mut set = tokio::task::JoinSet::new();
        for name in ["one", "two", "three"] {
            let results = results.clone();
            set.spawn(named(name, async move {
                yield_now().await;
                results.send(name).unwrap();
            }));
        }
        while let Some(ended) = set.join_next().await {
            ended.unwrap();
        }
        assert_eq!(first.recv().await, Ok("one"));
    });
}

/// A pool on two workers of a runtime is closed while a job is sent.
pub fn closed_pool() {
    on_two_workers(async {
        let (jobs, mut rx) = broadcast::channel(8);
        let (open, is_open) = watch::channel(true);
        let worker = tokio::spawn(named("worker", async move {
            let mut done = 0;
            while done < 3 && rx.recv().await.is_ok() {
                done += 1;
            }
            open.send(false).ok();
            drop(rx);
        }));
        let desk = tokio::spawn(named("desk", async move {
            for job in 0..20 {
                if !*is_open.borrow() {
                    break;
                }
                jobs.send(job).expect("the pool is open");
                sleep(Duration::from_micros(300)).await;
            }
        }));
        ended(desk).await;
        ended(worker).await;
    });
}
