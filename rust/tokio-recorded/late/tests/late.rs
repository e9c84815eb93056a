//! Programs with a receiver that is late, each of which fails. `reasons` beside this folder says
//! why it is late, as was written down before the report was read. A comment `@NAME` marks a line
//! that a reason names.

use late::events::{self, Signals};
use late::{Db, Sent, wait};
use std::sync::Arc;
use std::time::Duration;
use tokio::io::{AsyncReadExt, AsyncWriteExt};
use tokio::sync::broadcast::{self, Receiver, Sender, error::RecvError};
use tokio::sync::{Mutex, Notify, RwLock, Semaphore, mpsc, oneshot, watch};
use yovanelum::{Recorder, named};

/// Sends an order each millisecond, and counts them.
async fn feed(orders: Sender<u32>, sent: Sent) {
    for id in 0..12 {
        let _ = orders.send(id);
        sent.add();
        wait(1).await;
    }
}

/// The same on a thread, which waits after the first order until `tasks` tasks compute.
fn feed_on_thread(
    orders: Sender<u32>,
    sent: Sent,
    computing: Sent,
    tasks: u32,
) -> std::thread::JoinHandle<()> {
    std::thread::spawn(move || {
        for id in 0..12 {
            let _ = orders.send(id);
            sent.add();
            // So they compute for longer than a busy machine stops a thread.
            std::thread::sleep(Duration::from_millis(10));
            while !computing.is(tasks) {
                std::thread::yield_now();
            }
        }
    })
}

/// Returns the next order, or `None` where orders were lost or there are no more.
async fn next(orders: &mut Receiver<u32>, has_lagged: &mut bool) -> Option<u32> {
    match orders.recv().await {
        Ok(id) => Some(id),
        Err(RecvError::Lagged(_)) => {
            *has_lagged = true;
            None
        }
        Err(RecvError::Closed) => None,
    }
}

/// Fails if the audit has lost orders.
async fn audited(audit: tokio::task::JoinHandle<bool>) {
    assert!(!audit.await.unwrap(), "orders were lost");
}

/// Has a task feed, and fails if the audit has lost orders.
async fn fed(orders: Sender<u32>, sent: Sent, audit: tokio::task::JoinHandle<bool>) {
    tokio::spawn(feed(orders, sent));
    audited(audit).await;
}

#[tokio::test]
async fn mutex() {
    let _recorder = Recorder::for_test("mutex");
    let (orders, mut rx) = broadcast::channel(2);
    let db = Db::default();
    let rows = db.0.clone();
    let [sent, overwritten] = Sent::shared();
    let audit = tokio::spawn(named("audit", async move {
        let mut lagged = false;
        while let Some(id) = next(&mut rx, &mut lagged).await {
            db.store(id).await;
        }
        lagged
    }));
    tokio::spawn(named("backup", async move {
        let locked = rows.lock().await;
        overwritten.reaches(5).await;
        drop(locked); // @mutex_released
    }));
    tokio::spawn(named("feed", feed(orders, sent)));
    audited(audit).await;
}

#[tokio::test]
async fn rwlock() {
    let _recorder = Recorder::for_test("rwlock");
    let (orders, mut rx) = broadcast::channel(2);
    let rows = Arc::new(RwLock::new(vec![]));
    let read = rows.clone();
    let [sent, overwritten] = Sent::shared();
    let audit = tokio::spawn(async move {
        let mut lagged = false;
        while let Some(id) = next(&mut rx, &mut lagged).await {
            rows.write().await.push(id); // @rwlock_write
        }
        lagged
    });
    tokio::spawn(named("report", async move {
        let locked = read.read().await;
        overwritten.reaches(5).await;
        drop(locked); // @rwlock_released
    }));
    fed(orders, sent, audit).await;
}

#[tokio::test]
async fn semaphore() {
    let _recorder = Recorder::for_test("semaphore");
    let (orders, mut rx) = broadcast::channel(2);
    let slots = Arc::new(Semaphore::new(1));
    let taken = slots.clone();
    let [sent, overwritten] = Sent::shared();
    let audit = tokio::spawn(async move {
        let mut lagged = false;
        while next(&mut rx, &mut lagged).await.is_some() {
            let _slot = slots.acquire().await.unwrap(); // @semaphore_acquire
        }
        lagged
    });
    tokio::spawn(named("upload", async move {
        let slot = taken.acquire().await.unwrap();
        overwritten.reaches(5).await;
        drop(slot); // @semaphore_released
    }));
    fed(orders, sent, audit).await;
}

#[tokio::test]
async fn notify() {
    let _recorder = Recorder::for_test("notify");
    let (orders, mut rx) = broadcast::channel(2);
    let bell = Arc::new(Notify::new());
    let rung = bell.clone();
    let [sent, overwritten] = Sent::shared();
    let audit = tokio::spawn(async move {
        let mut lagged = false;
        while next(&mut rx, &mut lagged).await.is_some() {
            rung.notified().await; // @notify_notified
        }
        lagged
    });
    tokio::spawn(named("ringer", async move {
        overwritten.reaches(5).await;
        bell.notify_one(); // @notify_rung
    }));
    fed(orders, sent, audit).await;
}

#[tokio::test]
async fn oneshot_answer() {
    let _recorder = Recorder::for_test("oneshot_answer");
    let (orders, mut rx) = broadcast::channel(2);
    let [sent, overwritten] = Sent::shared();
    let (ask, mut asked) = mpsc::channel::<oneshot::Sender<()>>(4);
    let audit = tokio::spawn(async move {
        let mut lagged = false;
        while next(&mut rx, &mut lagged).await.is_some() {
            let (answer, answered) = oneshot::channel();
            ask.send(answer).await.unwrap();
            answered.await.unwrap(); // @oneshot_answered
        }
        lagged
    });
    tokio::spawn(named("clerk", async move {
        while let Some(answer) = asked.recv().await {
            overwritten.reaches(5).await;
            answer.send(()).unwrap(); // @oneshot_sent
        }
    }));
    fed(orders, sent, audit).await;
}

#[tokio::test]
async fn full_mpsc() {
    let _recorder = Recorder::for_test("full_mpsc");
    let (orders, mut rx) = broadcast::channel(2);
    let [sent, overwritten] = Sent::shared();
    let (lines, mut written) = mpsc::channel::<u32>(1);
    let audit = tokio::spawn(async move {
        let mut lagged = false;
        while let Some(id) = next(&mut rx, &mut lagged).await {
            lines.send(id).await.unwrap(); // @mpsc_send
        }
        lagged
    });
    tokio::spawn(named("writer", async move {
        overwritten.reaches(6).await;
        while written.recv().await.is_some() {} // @mpsc_recv
    }));
    fed(orders, sent, audit).await;
}

#[tokio::test]
async fn sleep() {
    let _recorder = Recorder::for_test("sleep");
    let (orders, mut rx) = broadcast::channel(2);
    let [signals, own, _] = Signals::shared();
    let audit = tokio::spawn(async move {
        while events::next(&mut rx, &own).await.is_some() {
            own.is_busy_after_poll();
            tokio::time::sleep(Duration::from_secs(1)).await; // @sleep_sleep
        }
    });
    events::fed(orders, audit, &signals).await;
}

#[tokio::test]
async fn interval() {
    let _recorder = Recorder::for_test("interval");
    let (orders, mut rx) = broadcast::channel(2);
    let [signals, own, _] = Signals::shared();
    let audit = tokio::spawn(async move {
        let mut pace = tokio::time::interval(Duration::from_secs(1));
        pace.tick().await;
        while events::next(&mut rx, &own).await.is_some() {
            own.is_busy_after_poll();
            while !own.has_overwritten() {
                pace.tick().await; // @interval_tick
            }
        }
    });
    events::fed(orders, audit, &signals).await;
}

#[tokio::test]
async fn timeout() {
    let _recorder = Recorder::for_test("timeout");
    let (orders, mut rx) = broadcast::channel(2);
    let [signals, own, _] = Signals::shared();
    let audit = tokio::spawn(async move {
        while events::next(&mut rx, &own).await.is_some() {
            own.is_busy_after_poll();
            let never = std::future::pending::<()>();
            let _ = tokio::time::timeout(Duration::from_secs(1), never).await; // @timeout_timeout
        }
    });
    events::fed(orders, audit, &signals).await;
}

#[tokio::test]
async fn tcp() {
    let _recorder = Recorder::for_test("tcp");
    let listener = tokio::net::TcpListener::bind("127.0.0.1:0").await.unwrap();
    let address = listener.local_addr().unwrap();
    let [sent, overwritten] = Sent::shared();
    tokio::spawn(named("server", async move {
        let (mut stream, _) = listener.accept().await.unwrap();
        let mut byte = [0];
        while stream.read_exact(&mut byte).await.is_ok() {
            overwritten.reaches(5).await;
            stream.write_all(&byte).await.unwrap();
        }
    }));
    let mut stream = tokio::net::TcpStream::connect(address).await.unwrap();
    let (orders, mut rx) = broadcast::channel(2);
    let audit = tokio::spawn(async move {
        let mut lagged = false;
        while next(&mut rx, &mut lagged).await.is_some() {
            stream.write_all(b"x").await.unwrap();
            let mut byte = [0];
            stream.read_exact(&mut byte).await.unwrap(); // @tcp_read
        }
        lagged
    });
    fed(orders, sent, audit).await;
}

#[tokio::test]
async fn blocking() {
    let _recorder = Recorder::for_test("blocking");
    let (orders, mut rx) = broadcast::channel(2);
    let [sent, overwritten] = Sent::shared();
    let audit = tokio::spawn(async move {
        let mut lagged = false;
        while next(&mut rx, &mut lagged).await.is_some() {
            let sent = overwritten.clone();
            let work = tokio::task::spawn_blocking(move || sent.compute_until(5)); // @blocking_spawned
            work.await.unwrap(); // @blocking_joined
        }
        lagged
    });
    fed(orders, sent, audit).await;
}

#[tokio::test]
async fn join_handle() {
    let _recorder = Recorder::for_test("join_handle");
    let (orders, mut rx) = broadcast::channel(2);
    let [sent, overwritten] = Sent::shared();
    let audit = tokio::spawn(async move {
        let mut lagged = false;
        while next(&mut rx, &mut lagged).await.is_some() {
            let sent = overwritten.clone();
            let work = tokio::spawn(named("checker", async move { sent.reaches(5).await }));
            work.await.unwrap(); // @join_joined
        }
        lagged
    });
    fed(orders, sent, audit).await;
}

#[tokio::test]
async fn computed() {
    let _recorder = Recorder::for_test("computed");
    let (orders, mut rx) = broadcast::channel(2);
    let audit = tokio::spawn(async move {
        let mut lagged = false;
        while next(&mut rx, &mut lagged).await.is_some() {}
        lagged
    });
    let (sent, computing) = (Sent::default(), Sent::default());
    let (overwritten, computes) = (sent.clone(), computing.clone());
    tokio::spawn(named("import", async move {
        overwritten.reaches(1).await;
        tokio::task::yield_now().await; // @computed_resumed
        computes.add();
        overwritten.compute_until(9);
    }));
    let thread = feed_on_thread(orders, sent, computing, 1);
    audited(audit).await;
    thread.join().unwrap();
}

#[tokio::test(flavor = "multi_thread", worker_threads = 2)]
async fn worked() {
    let recorder = Recorder::for_test("worked");
    let (orders, mut rx) = broadcast::channel(2);
    recorder.show(&orders, |id| format!("order {id}"));
    let [sent, overwritten] = Sent::shared();
    let [computing, computes] = Sent::shared();
    let audit = tokio::spawn(async move {
        let mut lagged = false;
        loop {
            let received = rx.recv().await; // @worked_received
            match received {
                Ok(_) => {
                    computes.add();
                    overwritten.compute_until(5);
                }
                Err(RecvError::Lagged(_)) => lagged = true,
                Err(RecvError::Closed) => return lagged,
            }
            if lagged {
                return lagged;
            }
        }
    });
    tokio::spawn(async move {
        for id in 0..12 {
            let _ = orders.send(id);
            sent.add();
            wait(1).await;
            computing.reaches(1).await;
        }
    });
    audited(audit).await;
}

#[tokio::test]
async fn burst() {
    let _recorder = Recorder::for_test("burst");
    let (orders, mut rx) = broadcast::channel(2);
    let audit = tokio::spawn(async move {
        let mut lagged = false;
        while next(&mut rx, &mut lagged).await.is_some() {}
        lagged
    });
    tokio::spawn(named("feed", async move {
        wait(1).await;
        orders.send(70).unwrap();
        wait(1).await;
        orders.send(71).unwrap(); // @burst_first
        for id in 72..77 {
            orders.send(id).unwrap(); // @burst_last
        }
    }));
    audited(audit).await;
}

#[tokio::test(flavor = "multi_thread", worker_threads = 2)]
async fn burst_beside() {
    let _recorder = Recorder::for_test("burst_beside");
    let (orders, mut rx) = broadcast::channel(2);
    let audit = tokio::spawn(async move {
        let mut lagged = false;
        while next(&mut rx, &mut lagged).await.is_some() {}
        lagged
    });
    tokio::spawn(named("feed", async move {
        // The stack of the first wait is captured, which may take longer than the timer: that then
        // is over before anything waits for it. The second waits for longer than any thread stops.
        wait(3).await;
        wait(1_000).await;
        for id in 0..64 {
            orders.send(id).unwrap(); // @burst_beside_sent
        }
        wait(3).await;
    }));
    audited(audit).await;
}

#[tokio::test]
async fn same_task() {
    let _recorder = Recorder::for_test("same_task");
    let (orders, mut rx) = broadcast::channel(2);
    for id in [71, 72, 73] {
        orders.send(id).unwrap();
        tokio::task::yield_now().await;
    }
    assert_eq!(rx.recv().await, Ok(71));
}

#[tokio::test]
async fn select_branch() {
    let _recorder = Recorder::for_test("select_branch");
    let (orders, mut rx) = broadcast::channel(2);
    let [signals, own, _] = Signals::shared();
    let audit = tokio::spawn(async move {
        let mut flush = tokio::time::interval(Duration::from_millis(5));
        loop {
            tokio::select! {
                order = events::next(&mut rx, &own) => if order.is_none() { return },
                _ = flush.tick() => {
                    own.is_busy_after_poll();
                    tokio::time::sleep(Duration::from_secs(1)).await; // @select_flushes
                }
            }
        }
    });
    events::fed(orders, audit, &signals).await;
}

#[tokio::test]
async fn stream_then() {
    use futures::StreamExt;
    let _recorder = Recorder::for_test("stream_then");
    let (orders, rx) = broadcast::channel(2);
    let [signals, own, stores] = Signals::shared();
    let audit = tokio::spawn(async move {
        let received = futures::stream::unfold((rx, own), |(mut rx, own)| async move {
            let id = events::next(&mut rx, &own).await;
            id.map(|id| (id, (rx, own)))
        });
        let stored = received.then(|id| {
            stores.is_busy_after_poll();
            async move {
                wait(1_000).await;
                id
            }
        });
        let mut stored = Box::pin(stored);
        while stored.next().await.is_some() {}
    });
    events::fed(orders, audit, &signals).await;
}

#[tokio::test]
async fn stream_concurrent() {
    use futures::StreamExt;
    let _recorder = Recorder::for_test("stream_concurrent");
    let (orders, rx) = broadcast::channel(2);
    let [signals, own, stores] = Signals::shared();
    let audit = tokio::spawn(async move {
        let received = futures::stream::unfold((rx, own), |(mut rx, own)| async move {
            let id = events::next(&mut rx, &own).await;
            id.map(|id| (id, (rx, own)))
        });
        let stored = received.for_each_concurrent(1, |_| {
            stores.is_busy_after_poll();
            wait(1_000)
        });
        stored.await; // @concurrent_waits
    });
    events::fed(orders, audit, &signals).await;
}

#[tokio::test]
async fn held_across_await() {
    let _recorder = Recorder::for_test("held_across_await");
    let (orders, mut rx) = broadcast::channel(2);
    let state = Arc::new(Mutex::new(0));
    let own = state.clone();
    let audit = tokio::spawn(named("audit", async move {
        let mut lagged = false;
        while let Some(id) = next(&mut rx, &mut lagged).await {
            *own.lock().await = id; // @held_lock
        }
        lagged
    }));
    tokio::spawn(named("feed", async move {
        let mut last = state.lock().await;
        for id in 0..6 {
            orders.send(id).unwrap();
            wait(2).await;
            *last = id;
        }
        drop(last); // @held_released
        wait(5).await;
    }));
    audited(audit).await;
}

#[tokio::test]
async fn join_all() {
    let _recorder = Recorder::for_test("join_all");
    let (orders, mut rx) = broadcast::channel(2);
    let [signals, own, _] = Signals::shared();
    let audit = tokio::spawn(async move {
        while events::next(&mut rx, &own).await.is_some() {
            own.is_busy_after_poll();
            futures::future::join_all((1..40).map(|n| wait(1_000 + n))).await; // @join_all_waits
        }
    });
    events::fed(orders, audit, &signals).await;
}

#[tokio::test(flavor = "multi_thread", worker_threads = 2)]
async fn busy_workers() {
    let _recorder = Recorder::for_test("busy_workers");
    let (orders, mut rx) = broadcast::channel(2);
    let audit = tokio::spawn(async move {
        let mut lagged = false;
        while next(&mut rx, &mut lagged).await.is_some() {}
        lagged
    });
    let (sent, computing) = (Sent::default(), Sent::default());
    for name in ["import 1", "import 2"] {
        let (overwritten, computes) = (sent.clone(), computing.clone());
        tokio::spawn(named(name, async move {
            overwritten.reaches(1).await;
            tokio::task::yield_now().await; // @busy_workers_resumed
            computes.add();
            overwritten.compute_until(9);
        }));
    }
    let thread = feed_on_thread(orders, sent, computing, 2);
    audited(audit).await;
    thread.join().unwrap();
}

#[tokio::test]
async fn main_receives() {
    let _recorder = Recorder::for_test("main_receives");
    let (orders, mut rx) = broadcast::channel(2);
    let bell = Arc::new(Notify::new());
    let rung = bell.clone();
    let [sent, overwritten] = Sent::shared();
    tokio::spawn(feed(orders, sent));
    tokio::spawn(named("ringer", async move {
        overwritten.reaches(5).await;
        rung.notify_one(); // @main_rung
    }));
    assert_eq!(rx.recv().await, Ok(0));
    bell.notified().await; // @main_notified
    assert_eq!(rx.recv().await, Ok(1));
}

#[tokio::test]
async fn local_set() {
    let _recorder = Recorder::for_test("local_set");
    let set = tokio::task::LocalSet::new();
    let in_set = async {
        let (orders, mut rx) = broadcast::channel(2);
        let [signals, own, _] = Signals::shared();
        let audit = tokio::task::spawn_local(async move {
            while events::next(&mut rx, &own).await.is_some() {
                own.is_busy_after_poll();
                tokio::time::sleep(Duration::from_secs(1)).await; // @local_sleeps
            }
        });
        tokio::task::spawn_local(events::feed(orders, signals.clone()));
        events::audited(audit, &signals).await;
    };
    set.run_until(in_set).await;
}

#[tokio::test]
async fn unpolled() {
    let _recorder = Recorder::for_test("unpolled");
    let (orders, mut rx) = broadcast::channel(2);
    let [sent, overwritten] = Sent::shared();
    tokio::spawn(feed(orders, sent));
    let mut audit = Box::pin(named("audit", async move {
        let mut lagged = false;
        while next(&mut rx, &mut lagged).await.is_some() {}
        lagged
    }));
    tokio::select! {
        lagged = &mut audit => assert!(!lagged, "orders were lost"),
        () = overwritten.reaches(2) => {}
    }
    overwritten.reaches(7).await;
    assert!(!audit.await, "orders were lost");
}

#[tokio::test]
async fn unseen_change() {
    let _recorder = Recorder::for_test("unseen_change");
    let (state, mut rx) = watch::channel(0);
    let db = Db::default();
    let look = Arc::new(Notify::new());
    let looked = look.clone();
    let rows = db.0.clone();
    let screen = tokio::spawn(named("screen", async move {
        while rx.changed().await.is_ok() {
            let state = *rx.borrow_and_update();
            looked.notify_one();
            db.store(state).await;
        }
    }));
    let locked = rows.lock().await;
    state.send(1).unwrap();
    look.notified().await;
    for state_now in 2..4 {
        wait(3).await;
        state.send(state_now).unwrap();
    }
    wait(3).await;
    assert!(screen.is_finished(), "a change was not seen");
    drop(locked);
}

#[tokio::test(start_paused = true)]
async fn paused() {
    let _recorder = Recorder::for_test("paused");
    let (orders, mut rx) = broadcast::channel(2);
    let audit = tokio::spawn(async move {
        let mut lagged = false;
        while next(&mut rx, &mut lagged).await.is_some() {
            tokio::time::sleep(Duration::from_millis(900)).await; // @paused_sleeps
        }
        lagged
    });
    fed(orders, Sent::default(), audit).await;
}

#[tokio::test]
async fn thread_receives() {
    let _recorder = Recorder::for_test("thread_receives");
    let (orders, mut rx) = broadcast::channel(2);
    let [sent, overwritten] = Sent::shared();
    let audit = std::thread::spawn(move || {
        loop {
            match rx.blocking_recv() {
                Ok(_) => overwritten.compute_until(5),
                Err(RecvError::Lagged(_)) => return true,
                Err(RecvError::Closed) => return false,
            }
        }
    });
    let feed = tokio::spawn(feed(orders, sent));
    feed.await.unwrap();
    assert!(!audit.join().unwrap(), "orders were lost");
}

#[tokio::test]
async fn deadlock() {
    let _recorder = Recorder::for_test("deadlock");
    let (orders, mut rx) = broadcast::channel::<u32>(2);
    let (rows, log) = (Arc::new(Mutex::new(1)), Arc::new(Mutex::new(2)));
    let (rows_too, log_too) = (rows.clone(), log.clone());
    let [locking, writes] = Sent::shared();
    let logs = locking.clone();
    // Long enough that no timer is due before it is polled, however busy the machine is.
    tokio::spawn(named("writer", async move {
        let _rows = rows.lock().await;
        wait(50).await;
        writes.add();
        let _log = log.lock().await; // @deadlock_log
        orders.send(1).unwrap();
    }));
    tokio::spawn(named("logger", async move {
        let _log = log_too.lock().await;
        wait(50).await;
        logs.add();
        let _rows = rows_too.lock().await; // @deadlock_rows
    }));
    locking.reaches(2).await;
    let order = tokio::time::timeout(Duration::from_millis(300), rx.recv()).await;
    order.expect("an order").unwrap();
}
