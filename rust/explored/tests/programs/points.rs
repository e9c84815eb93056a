//! Bugs between two calls of one poll, where two workers run, and between two calls of threads. The
//! calls are those of tokio's own types, which are steps where `YOVANELUM_EXPLORE_POINTS` says so.

use super::{ended, joined, on_two_workers, spawn, work};
use std::sync::Arc;
use std::sync::atomic::{AtomicBool, AtomicU32, Ordering};
use tokio::sync::{Mutex, Notify, RwLock, Semaphore, mpsc, oneshot};
use yovanelum::named;

/// Two guests look whether a table is free, and then take it. Both may have seen the same one.
///
/// It fails where `bob` looks after `ann` has looked and before she takes it, or the other way
/// round: the second one finds none.
pub fn last_table() {
    on_two_workers(async {
        let tables = Arc::new(Semaphore::new(1));
        let guests = [("ann", 5), ("bob", 400)].map(|(name, late)| {
            let tables = tables.clone();
            tokio::spawn(named(name, async move {
                work(late);
                if tables.available_permits() > 0 {
                    tables.try_acquire().expect("a table is free").forget();
                }
            }))
        });
        for guest in guests {
            ended(guest).await;
        }
    });
}

/// A printer prints what is there, and then closes its queue. A page that comes in between was
/// accepted, and is never printed.
///
/// It fails where `clerk` sends after `printer` has found the queue empty and before it closes it.
pub fn drained_then_closed() {
    let (accepted, printed) = on_two_workers(async {
        let (pages, mut queue) = mpsc::channel(4);
        let clerk = tokio::spawn(named("clerk", async move {
            work(300);
            u32::from(pages.try_send(7).is_ok())
        }));
        let printer = tokio::spawn(named("printer", async move {
            let mut printed = 0;
            while queue.try_recv().is_ok() {
                printed += 1;
            }
            queue.close();
            printed
        }));
        let accepted = ended(clerk).await;
        (accepted, ended(printer).await)
    });
    assert_eq!(printed, accepted);
}

/// Two tills read how many tickets are left, and write one less. Both locks are free, so neither
/// waits in between.
///
/// It fails where one till reads after the other one has read and before that one writes.
pub fn sold_twice() {
    let left = on_two_workers(async {
        let left = Arc::new(RwLock::new(2));
        let tills = [("east", 5), ("west", 300)].map(|(name, late)| {
            let left = left.clone();
            tokio::spawn(named(name, async move {
                work(late);
                let before = *left.read().await;
                *left.write().await = before - 1;
            }))
        });
        for till in tills {
            ended(till).await;
        }
        let left = left.read().await;
        *left
    });
    assert_eq!(left, 0);
}

/// Two requests look into a cache, and load what it lacks. It is to be loaded once.
///
/// It fails where the second request looks after the first one has looked and before that one
/// stores what it has loaded.
pub fn loaded_twice() {
    let loads = on_two_workers(async {
        let (cache, loads) = (Arc::new(Mutex::new(None)), Arc::new(AtomicU32::new(0)));
        let requests = [("first", 5), ("second", 300)].map(|(name, late)| {
            let (cache, loads) = (cache.clone(), loads.clone());
            tokio::spawn(named(name, async move {
                work(late);
                let is_known = cache.lock().await.is_some();
                if !is_known {
                    loads.fetch_add(1, Ordering::SeqCst);
                    *cache.lock().await = Some("page");
                }
            }))
        });
        for request in requests {
            ended(request).await;
        }
        loads.load(Ordering::SeqCst)
    });
    assert_eq!(loads, 1);
}

/// A guest looks whether dinner is ready, and else waits to be told. The cook sets the mark and
/// tells all who wait.
///
/// It hangs where `cook` tells after `guest` has looked and before that one begins to wait.
pub fn told_before_it_waits() {
    on_two_workers(async {
        let (is_ready, bell) = (Arc::new(AtomicBool::new(false)), Arc::new(Notify::new()));
        let guest = tokio::spawn(named("guest", {
            let (is_ready, bell) = (is_ready.clone(), bell.clone());
            async move {
                if !is_ready.load(Ordering::SeqCst) {
                    bell.notified().await;
                }
            }
        }));
        let cook = tokio::spawn(named("cook", async move {
            work(300);
            is_ready.store(true, Ordering::SeqCst);
            bell.notify_waiters();
        }));
        ended(cook).await;
        ended(guest).await;
    });
}

/// A thread answers if its caller still waits, and takes it for granted that the answer is taken.
/// The caller goes if there is none yet.
///
/// It fails where `caller` goes after `callee` has seen it wait and before the answer.
pub fn answers_who_left() {
    let (answer, mut answered) = oneshot::channel();
    let callee = spawn("callee", move || {
        work(200);
        if !answer.is_closed() {
            answer.send(7).expect("the caller waits");
        }
    });
    let caller = spawn("caller", move || {
        let got = answered.try_recv();
        work(100);
        drop(answered);
        got
    });
    let _ = joined(caller);
    joined(callee);
}

/// Two threads receive a page each, and count it if the counter isn't locked. Both pages are to be
/// counted.
///
/// It fails where one thread tries to lock the counter while the other one has locked it.
pub fn skipped_count() {
    let counter = Arc::new(Mutex::new(0));
    let printers = ["left", "right"].map(|name| {
        let (page, mut pages) = mpsc::channel(1);
        let counter = counter.clone();
        let printer = spawn(name, move || {
            pages.blocking_recv();
            if let Ok(mut count) = counter.try_lock() {
                *count += 1;
            }
        });
        (page, printer)
    });
    let (pages, printers): (Vec<_>, Vec<_>) = printers.into_iter().unzip();
    let clerk = spawn("clerk", move || {
        for page in pages {
            page.blocking_send("page").unwrap();
            work(200);
        }
    });
    joined(clerk);
    printers.into_iter().for_each(joined);
    assert_eq!(*counter.blocking_lock(), 2);
}
