//! More programs with a receiver that is late, each of which fails. They and their reasons, in
//! `reasons-blind`, were written down before any was run, so no rule was made for them. A comment
//! `@NAME` marks a line that a reason names.

use late::Db;
use late::events::{
    Gate, Signals, audited, fed, fed_by_thread, next, this_thread, until_it_sleeps,
};
use std::sync::Arc;
use std::time::Duration;
use tokio::io::{AsyncReadExt, AsyncWriteExt};
use tokio::sync::{Barrier, Mutex, Notify, RwLock, Semaphore};
use tokio::sync::{broadcast, mpsc, oneshot, watch};
use yovanelum::{Recorder, named};

#[tokio::test(flavor = "multi_thread", worker_threads = 2)]
async fn rwlock_read() {
    let _recorder = Recorder::for_test("rwlock_read");
    let (orders, mut rx) = broadcast::channel(2);
    let [signals, own, changed] = Signals::shared();
    let prices = Arc::new(RwLock::new(7));
    let held = prices.clone().write_owned().await;
    let audit = tokio::spawn(named("audit", async move {
        while next(&mut rx, &own).await.is_some() {
            own.is_busy_after_poll();
            let price = prices.read().await; // @rwlock_read
            assert_eq!(*price, 8);
        }
    }));
    tokio::spawn(named("reload", async move {
        let mut prices = held;
        changed.overwritten().await;
        *prices += 1;
        drop(prices); // @rwlock_read_released
    }));
    fed(orders, audit, &signals).await;
}

#[tokio::test(flavor = "multi_thread", worker_threads = 1)]
async fn barrier() {
    let _recorder = Recorder::for_test("barrier");
    let (orders, mut rx) = broadcast::channel(2);
    let [signals, own, changed] = Signals::shared();
    let both = Arc::new(Barrier::new(2));
    let other = both.clone();
    let audit = tokio::spawn(named("audit", async move {
        while next(&mut rx, &own).await.is_some() {
            own.is_busy_after_poll();
            both.wait().await; // @barrier_waits
        }
    }));
    tokio::spawn(named("peer", async move {
        changed.overwritten().await;
        other.wait().await; // @barrier_full
    }));
    fed(orders, audit, &signals).await;
}

#[tokio::test]
async fn acquire_many() {
    let _recorder = Recorder::for_test("acquire_many");
    let (state, mut rx) = watch::channel(0);
    let [signals, own, changed] = Signals::shared();
    let slots = Arc::new(Semaphore::new(2));
    let slot = slots.clone().acquire_owned().await.unwrap();
    let screen = tokio::spawn(named("screen", async move {
        let mut shown = vec![];
        while rx.changed().await.is_ok() {
            shown.push(*rx.borrow_and_update());
            own.is_busy_after_poll();
            let _slots = slots.acquire_many(2).await.unwrap(); // @many_acquired
        }
        shown
    }));
    tokio::spawn(named("upload", async move {
        changed.overwritten().await;
        drop(slot); // @many_released
    }));
    tokio::spawn(named("model", async move {
        state.send(1).unwrap();
        signals.busy().await;
        for now in 2..4 {
            state.send(now).unwrap();
            tokio::task::yield_now().await;
        }
        signals.are_overwritten();
    }));
    assert_eq!(screen.await.unwrap(), [1, 2, 3]);
}

#[tokio::test(flavor = "multi_thread", worker_threads = 1)]
async fn mpsc_reply() {
    let _recorder = Recorder::for_test("mpsc_reply");
    let (orders, mut rx) = broadcast::channel(2);
    let [signals, own, changed] = Signals::shared();
    let (ask, mut asked) = mpsc::channel(8);
    let (reply, mut replied) = mpsc::channel(8);
    let audit = tokio::spawn(named("audit", async move {
        while let Some(id) = next(&mut rx, &own).await {
            ask.send(id).await.unwrap();
            own.is_busy_after_poll();
            assert_eq!(replied.recv().await, Some(id)); // @reply_received
        }
    }));
    tokio::spawn(named("clerk", async move {
        while let Some(id) = asked.recv().await {
            changed.overwritten().await;
            reply.send(id).await.unwrap(); // @reply_sent
        }
    }));
    fed(orders, audit, &signals).await;
}

#[tokio::test]
async fn other_channel() {
    let _recorder = Recorder::for_test("other_channel");
    let (orders, mut rx) = broadcast::channel(2);
    let (approvals, mut approved) = broadcast::channel(8);
    let [signals, own, changed] = Signals::shared();
    let audit = tokio::spawn(named("audit", async move {
        while let Some(id) = next(&mut rx, &own).await {
            own.is_busy_after_poll();
            assert_eq!(approved.recv().await, Ok(id)); // @approval_received
        }
    }));
    tokio::spawn(named("approver", async move {
        changed.overwritten().await;
        approvals.send(0).unwrap(); // @approval_sent
    }));
    fed(orders, audit, &signals).await;
}

#[tokio::test(start_paused = true)]
async fn deadline() {
    let _recorder = Recorder::for_test("deadline");
    let (orders, mut rx) = broadcast::channel(2);
    let signals = Signals::new();
    let own = signals.clone();
    let audit = tokio::spawn(named("audit", async move {
        while next(&mut rx, &own).await.is_some() {
            own.is_busy_after_poll();
            let end = tokio::time::Instant::now() + Duration::from_secs(3600);
            let never = std::future::pending::<()>();
            let _ = tokio::time::timeout_at(end, never).await; // @deadline_passes
        }
    }));
    fed(orders, audit, &signals).await;
}

#[tokio::test]
async fn tcp_write() {
    let _recorder = Recorder::for_test("tcp_write");
    let listener = tokio::net::TcpListener::bind("127.0.0.1:0").await.unwrap();
    let connects = tokio::net::TcpStream::connect(listener.local_addr().unwrap());
    let (stream, accepted) = tokio::join!(connects, listener.accept());
    let (mut stream, (mut accepted, _)) = (stream.unwrap(), accepted.unwrap());
    let (orders, mut rx) = broadcast::channel(2);
    let [signals, own, changed] = Signals::shared();
    let audit = tokio::spawn(named("audit", async move {
        // More than the system buffers for both ends.
        let page = vec![0; 64 << 20];
        while next(&mut rx, &own).await.is_some() {
            own.is_busy_after_poll();
            stream.write_all(&page).await.unwrap(); // @tcp_written
        }
    }));
    tokio::spawn(named("server", async move {
        changed.overwritten().await;
        let mut page = vec![];
        accepted.read_to_end(&mut page).await.unwrap();
    }));
    fed(orders, audit, &signals).await;
}

#[tokio::test(flavor = "multi_thread", worker_threads = 1)]
async fn udp() {
    let _recorder = Recorder::for_test("udp");
    let socket = tokio::net::UdpSocket::bind("127.0.0.1:0").await.unwrap();
    let address = socket.local_addr().unwrap();
    let (orders, mut rx) = broadcast::channel(2);
    let [signals, own, changed] = Signals::shared();
    let audit = tokio::spawn(named("audit", async move {
        let mut byte = [0];
        while next(&mut rx, &own).await.is_some() {
            own.is_busy_after_poll();
            socket.recv(&mut byte).await.unwrap(); // @udp_received
        }
    }));
    tokio::spawn(named("server", async move {
        let server = tokio::net::UdpSocket::bind("127.0.0.1:0").await.unwrap();
        changed.overwritten().await;
        server.send_to(b"x", address).await.unwrap();
    }));
    fed(orders, audit, &signals).await;
}

#[tokio::test]
async fn duplex() {
    let _recorder = Recorder::for_test("duplex");
    let (mut near, mut far) = tokio::io::duplex(8);
    let (orders, mut rx) = broadcast::channel(2);
    let [signals, own, changed] = Signals::shared();
    let audit = tokio::spawn(named("audit", async move {
        while next(&mut rx, &own).await.is_some() {
            own.is_busy_after_poll();
            near.read_u8().await.unwrap(); // @duplex_read
        }
    }));
    tokio::spawn(named("peer", async move {
        changed.overwritten().await;
        far.write_u8(1).await.unwrap(); // @duplex_written
    }));
    fed(orders, audit, &signals).await;
}

#[tokio::test(flavor = "multi_thread", worker_threads = 2)]
async fn block_in_place() {
    let recorder = Recorder::for_test("block_in_place");
    let (orders, mut rx) = broadcast::channel(2);
    recorder.show(&orders, |id| format!("order {id}"));
    let signals = Signals::new();
    let own = signals.clone();
    let audit = tokio::spawn(named("audit", async move {
        while next(&mut rx, &own).await.is_some() {
            own.is_busy_now();
            tokio::task::block_in_place(|| own.block_until_overwritten());
        }
    }));
    fed_by_thread(orders, audit, &signals).await;
}

#[tokio::test]
async fn sibling() {
    let _recorder = Recorder::for_test("sibling");
    let (orders, mut rx) = broadcast::channel(2);
    let signals = Signals::new();
    let own = signals.clone();
    let audit = tokio::spawn(named("audit", async move {
        let receives = async {
            while next(&mut rx, &own).await.is_some() {
                own.is_busy_after_poll();
            }
        };
        let computes = async {
            own.busy().await;
            own.is_busy_now();
            own.block_until_overwritten();
        };
        tokio::join!(receives, computes);
    }));
    fed_by_thread(orders, audit, &signals).await;
}

#[tokio::test(flavor = "multi_thread", worker_threads = 1)]
async fn blocked_worker() {
    let _recorder = Recorder::for_test("blocked_worker");
    let (orders, mut rx) = broadcast::channel(2);
    let [signals, own, blocks] = Signals::shared();
    let audit = tokio::spawn(named("audit", async move {
        while next(&mut rx, &own).await.is_some() {
            own.is_busy_after_poll();
        }
    }));
    let (begins, has_begun) = oneshot::channel();
    tokio::spawn(named("import", async move {
        // The worker polls nobody else before this waits.
        begins.send(()).unwrap();
        blocks.busy().await;
        blocks.is_busy_now();
        blocks.block_until_overwritten();
    }));
    has_begun.await.unwrap();
    fed_by_thread(orders, audit, &signals).await;
}

#[tokio::test]
async fn burst_of_main() {
    let _recorder = Recorder::for_test("burst_of_main");
    let (orders, mut rx) = broadcast::channel(2);
    let signals = Signals::new();
    let own = signals.clone();
    let audit = tokio::spawn(named("audit", async move {
        while next(&mut rx, &own).await.is_some() {
            own.is_busy_after_poll();
        }
    }));
    orders.send(0).unwrap();
    signals.busy().await;
    for id in 1..6 {
        orders.send(id).unwrap(); // @main_sends
    }
    audited(audit, &signals).await;
}

#[tokio::test]
async fn select_stores() {
    let _recorder = Recorder::for_test("select_stores");
    let (orders, mut rx) = broadcast::channel(2);
    let [signals, own, changed] = Signals::shared();
    let db = Db::default();
    let rows = db.0.clone().lock_owned().await;
    let audit = tokio::spawn(named("audit", async move {
        let flush = Notify::new();
        loop {
            tokio::select! {
                order = next(&mut rx, &own) => match order {
                    Some(_) => flush.notify_one(),
                    None => return,
                },
                () = flush.notified() => {
                    own.is_busy_after_poll();
                    db.store(1).await;
                }
            }
        }
    }));
    tokio::spawn(named("backup", async move {
        changed.overwritten().await;
        drop(rows); // @select_released
    }));
    fed(orders, audit, &signals).await;
}

#[tokio::test]
async fn stream_filter() {
    use futures::StreamExt;
    let _recorder = Recorder::for_test("stream_filter");
    let (orders, rx) = broadcast::channel(2);
    let [signals, own, changed] = Signals::shared();
    let known = Arc::new(Mutex::new(vec![]));
    let held = known.clone().lock_owned().await;
    let audit = tokio::spawn(named("audit", async move {
        let received = futures::stream::unfold((rx, own.clone()), |(mut rx, own)| async move {
            let id = next(&mut rx, &own).await;
            id.map(|id| (id, (rx, own)))
        });
        let new = received.filter(move |id| {
            own.is_busy_after_poll();
            let (id, known) = (*id, known.clone());
            async move {
                let known = known.lock().await; // @filter_locked
                !known.contains(&id)
            }
        });
        assert_eq!(new.count().await, 6);
    }));
    tokio::spawn(named("backup", async move {
        changed.overwritten().await;
        drop(held); // @filter_released
    }));
    fed(orders, audit, &signals).await;
}

#[tokio::test]
async fn stream_buffered() {
    use futures::StreamExt;
    let _recorder = Recorder::for_test("stream_buffered");
    let (orders, rx) = broadcast::channel(2);
    let [signals, own, changed] = Signals::shared();
    let bell = Arc::new(Notify::new());
    let rung = bell.clone();
    let audit = tokio::spawn(named("audit", async move {
        let received = futures::stream::unfold((rx, own.clone()), |(mut rx, own)| async move {
            let id = next(&mut rx, &own).await;
            id.map(|id| (id, (rx, own)))
        });
        let stored = received.map(move |_| {
            own.is_busy_after_poll();
            let rung = rung.clone();
            async move { rung.notified().await }
        });
        let mut stored = Box::pin(stored.buffered(1));
        while stored.next().await.is_some() {} // @buffered_next
    }));
    tokio::spawn(named("ringer", async move {
        changed.overwritten().await;
        bell.notify_one(); // @buffered_rung
    }));
    fed(orders, audit, &signals).await;
}

#[tokio::test(flavor = "multi_thread", worker_threads = 2)]
async fn held_over_full_queue() {
    let _recorder = Recorder::for_test("held_over_full_queue");
    let (orders, mut rx) = broadcast::channel(2);
    let [signals, own, changed] = Signals::shared();
    let state = Arc::new(Mutex::new(0));
    let held = state.clone().lock_owned().await;
    let (lines, mut written) = mpsc::channel(1);
    lines.send(0).await.unwrap();
    let audit = tokio::spawn(named("audit", async move {
        while let Some(id) = next(&mut rx, &own).await {
            own.is_busy_after_poll();
            *state.lock().await = id; // @full_locked
        }
    }));
    tokio::spawn(named("writer", async move {
        lines.send(*held).await.unwrap();
        drop(held); // @full_released
    }));
    tokio::spawn(named("disk", async move {
        changed.overwritten().await;
        while written.recv().await.is_some() {}
    }));
    fed(orders, audit, &signals).await;
}

#[tokio::test]
async fn join_set() {
    let _recorder = Recorder::for_test("join_set");
    let (orders, mut rx) = broadcast::channel(2);
    let signals = Signals::new();
    let own = signals.clone();
    let audit = tokio::spawn(named("audit", async move {
        let mut checks = tokio::task::JoinSet::new();
        while next(&mut rx, &own).await.is_some() {
            let changed = own.clone();
            checks.spawn(named("checker", async move { changed.overwritten().await }));
            own.is_busy_after_poll();
            checks.join_next().await.unwrap().unwrap(); // @set_joined
        }
    }));
    fed(orders, audit, &signals).await;
}

#[tokio::test]
async fn aborted() {
    let _recorder = Recorder::for_test("aborted");
    let (orders, mut rx) = broadcast::channel(2);
    let [signals, own, changed] = Signals::shared();
    let mut checks = tokio::task::JoinSet::new();
    let handle = checks.spawn(named("checker", std::future::pending::<()>()));
    let audit = tokio::spawn(named("audit", async move {
        assert_eq!(next(&mut rx, &own).await, Some(0));
        own.is_busy_after_poll();
        assert!(checks.join_next().await.unwrap().is_err()); // @aborted_joined
        next(&mut rx, &own).await;
    }));
    tokio::spawn(named("killer", async move {
        changed.overwritten().await;
        handle.abort();
    }));
    fed(orders, audit, &signals).await;
}

#[tokio::test(flavor = "multi_thread", worker_threads = 2)]
async fn solver() {
    let _recorder = Recorder::for_test("solver");
    let (orders, mut rx) = broadcast::channel(2);
    let [signals, own, changed] = Signals::shared();
    let (ask, asked) = std::sync::mpsc::channel::<oneshot::Sender<u32>>();
    let thread = std::thread::Builder::new().name("solver".to_string());
    let thread = thread.spawn(move || {
        for answer in asked {
            changed.block_until_overwritten();
            answer.send(42).unwrap();
        }
    });
    let audit = tokio::spawn(named("audit", async move {
        while next(&mut rx, &own).await.is_some() {
            let (answer, answered) = oneshot::channel();
            ask.send(answer).unwrap();
            own.is_busy_after_poll();
            assert_eq!(answered.await, Ok(42)); // @solver_answered
        }
    }));
    fed(orders, audit, &signals).await;
    thread.unwrap().join().unwrap();
}

#[tokio::test]
async fn futures_lock() {
    let _recorder = Recorder::for_test("futures_lock");
    let (orders, mut rx) = broadcast::channel(2);
    let [signals, own, changed] = Signals::shared();
    let rows = Arc::new(futures::lock::Mutex::new(vec![]));
    let locks = rows.clone();
    tokio::spawn(named("backup", async move {
        let locked = locks.lock().await;
        changed.overwritten().await;
        drop(locked); // @futures_released
    }));
    let audit = tokio::spawn(named("audit", async move {
        while let Some(id) = next(&mut rx, &own).await {
            own.is_busy_after_poll();
            rows.lock().await.push(id); // @futures_locked
        }
    }));
    fed(orders, audit, &signals).await;
}

#[tokio::test]
async fn gate() {
    let _recorder = Recorder::for_test("gate");
    let (orders, mut rx) = broadcast::channel(2);
    let [signals, own, changed] = Signals::shared();
    let gate = Gate::default();
    let opens = gate.clone();
    let audit = tokio::spawn(named("audit", async move {
        while next(&mut rx, &own).await.is_some() {
            own.is_busy_after_poll();
            gate.clone().await;
        }
    }));
    tokio::spawn(named("keeper", async move {
        changed.overwritten().await;
        opens.open();
    }));
    fed(orders, audit, &signals).await;
}

#[tokio::test(flavor = "multi_thread", worker_threads = 2)]
async fn biased_jobs() {
    let recorder = Recorder::for_test("biased_jobs");
    let (orders, mut rx) = broadcast::channel(2);
    recorder.show(&orders, |id| format!("order {id}"));
    let signals = Signals::new();
    let own = signals.clone();
    let audit = tokio::spawn(named("audit", async move {
        let (queue, mut queued) = mpsc::channel(3);
        loop {
            tokio::select! {
                biased;
                Some(()) = queued.recv() => {
                    own.is_busy_now();
                    own.block_until_overwritten();
                }
                order = next(&mut rx, &own) => match order {
                    Some(_) => (0..3).for_each(|_| queue.try_send(()).unwrap()),
                    None => return,
                },
            }
        }
    }));
    fed_by_thread(orders, audit, &signals).await;
}

#[tokio::test]
async fn thread_blocks_on() {
    let _recorder = Recorder::for_test("thread_blocks_on");
    let (orders, mut rx) = broadcast::channel(2);
    let [signals, own, changed] = Signals::shared();
    let db = Db::default();
    let rows = db.0.clone().lock_owned().await;
    let (tells, thread) = oneshot::channel();
    let audit = tokio::task::spawn_blocking(move || {
        tells.send(this_thread()).unwrap();
        tokio::runtime::Handle::current().block_on(async move {
            while let Some(id) = next(&mut rx, &own).await {
                own.is_busy_after_poll();
                db.store(id).await;
            }
        });
    });
    tokio::spawn(named("backup", async move {
        changed.overwritten().await;
        drop(rows); // @blocks_on_released
    }));
    let sends = signals.clone();
    tokio::spawn(named("feed", async move {
        orders.send(0).unwrap();
        sends.busy().await;
        // Then the thread's poll has ended: no task of the runtime is run after it.
        until_it_sleeps(&thread.await.unwrap()).await;
        for id in 1..6 {
            orders.send(id).unwrap();
            late::wait(1).await;
        }
        sends.are_overwritten();
    }));
    audited(audit, &signals).await;
}

#[tokio::test]
async fn ring_of_three() {
    let _recorder = Recorder::for_test("ring_of_three");
    let (orders, mut rx) = broadcast::channel::<u32>(2);
    let locks = [(); 3].map(|()| Arc::new(Mutex::new(0)));
    let held = Arc::new(Semaphore::new(0));
    let turns = [(); 3].map(|()| Arc::new(Notify::new()));
    for (index, name) in ["cook", "waiter", "cashier"].into_iter().enumerate() {
        let (own, other) = (locks[index].clone(), locks[(index + 1) % 3].clone());
        let (held, turn, orders) = (held.clone(), turns[index].clone(), orders.clone());
        tokio::spawn(named(name, async move {
            let _own = own.lock().await;
            held.add_permits(1);
            turn.notified().await;
            let _other = other.lock().await; // @ring_locked
            orders.send(1).unwrap();
        }));
    }
    let _all = held.acquire_many(3).await.unwrap();
    for turn in turns {
        turn.notify_one(); // @ring_turn
    }
    let order = tokio::time::timeout(Duration::from_millis(300), rx.recv()).await;
    order.expect("an order").unwrap();
}
