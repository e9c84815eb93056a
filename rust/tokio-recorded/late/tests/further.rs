//! Ten more programs with a receiver that is late, as those of `blind.rs`. They and their reasons,
//! in `reasons-further`, were written down before any was run.

use late::Db;
use late::events::{Signals, audited, fed, fed_by_thread, feed, next};
use std::future::Future;
use std::pin::Pin;
use std::sync::Arc;
use std::time::Duration;
use tokio::sync::{Mutex, Notify, OnceCell, broadcast, mpsc, watch};
use yovanelum::{Recorder, named};

#[tokio::test(flavor = "multi_thread", worker_threads = 1)]
async fn once_cell() {
    let _recorder = Recorder::for_test("once_cell");
    let (orders, mut rx) = broadcast::channel(2);
    let [signals, own, changed] = Signals::shared();
    let rates = Arc::new(OnceCell::new());
    let (loaded, begun) = (rates.clone(), Arc::new(Notify::new()));
    let begins = begun.clone();
    tokio::spawn(named("loader", async move {
        let load = async {
            begins.notify_one();
            changed.overwritten().await;
            7
        };
        loaded.get_or_init(|| load).await; // @cell_loaded
    }));
    begun.notified().await;
    let audit = tokio::spawn(named("audit", async move {
        while next(&mut rx, &own).await.is_some() {
            own.is_busy_after_poll();
            let rate = rates.get_or_init(|| async { 8 }).await; // @cell_waits
            assert_eq!(*rate, 7);
        }
    }));
    fed(orders, audit, &signals).await;
}

#[tokio::test]
async fn other_watch() {
    let _recorder = Recorder::for_test("other_watch");
    let (orders, mut rx) = broadcast::channel(2);
    let (limits, mut limit) = watch::channel(0);
    let [signals, own, changed] = Signals::shared();
    let audit = tokio::spawn(named("audit", async move {
        while next(&mut rx, &own).await.is_some() {
            own.is_busy_after_poll();
            limit.changed().await.unwrap(); // @limit_awaited
        }
    }));
    tokio::spawn(named("config", async move {
        changed.overwritten().await;
        limits.send(1).unwrap(); // @limit_set
        limits.closed().await;
    }));
    fed(orders, audit, &signals).await;
}

#[tokio::test(flavor = "multi_thread", worker_threads = 2)]
async fn try_join_locks() {
    let _recorder = Recorder::for_test("try_join_locks");
    let (orders, mut rx) = broadcast::channel(2);
    let [signals, own, changed] = Signals::shared();
    let (stock, price) = (Arc::new(Mutex::new(1)), Arc::new(Mutex::new(2)));
    let held = stock.clone().lock_owned().await;
    let audit = tokio::spawn(named("audit", async move {
        while next(&mut rx, &own).await.is_some() {
            own.is_busy_after_poll();
            let priced = async { Ok::<_, ()>(*price.lock().await) };
            let stocked = async {
                Ok(*stock.lock().await) // @joined_lock
            };
            tokio::try_join!(priced, stocked).unwrap();
        }
    }));
    tokio::spawn(named("backup", async move {
        changed.overwritten().await;
        drop(held); // @joined_released
    }));
    fed(orders, audit, &signals).await;
}

#[tokio::test]
async fn packer_joined() {
    let _recorder = Recorder::for_test("packer_joined");
    let (orders, mut rx) = broadcast::channel(2);
    let [signals, own, changed] = Signals::shared();
    let db = Db::default();
    let held = db.0.clone().lock_owned().await;
    let audit = tokio::spawn(named("audit", async move {
        while let Some(id) = next(&mut rx, &own).await {
            let db = db.clone();
            let packed = tokio::spawn(named("packer", async move { db.store(id).await }));
            own.is_busy_after_poll();
            packed.await.unwrap(); // @packer_joined
        }
    }));
    tokio::spawn(named("backup", async move {
        changed.overwritten().await;
        drop(held);
    }));
    fed(orders, audit, &signals).await;
}

#[tokio::test(flavor = "multi_thread", worker_threads = 1)]
async fn reserved() {
    let _recorder = Recorder::for_test("reserved");
    let (orders, mut rx) = broadcast::channel(2);
    let [signals, own, changed] = Signals::shared();
    let (lines, mut printed) = mpsc::channel(1);
    lines.send(0).await.unwrap();
    let audit = tokio::spawn(named("audit", async move {
        while let Some(id) = next(&mut rx, &own).await {
            own.is_busy_after_poll();
            lines.reserve().await.unwrap().send(id); // @reserve_waits
        }
    }));
    tokio::spawn(named("printer", async move {
        changed.overwritten().await;
        while printed.recv().await.is_some() {} // @reserve_received
    }));
    fed(orders, audit, &signals).await;
}

#[tokio::test(flavor = "multi_thread", worker_threads = 2)]
async fn lock_with_timeout() {
    let _recorder = Recorder::for_test("lock_with_timeout");
    let (orders, mut rx) = broadcast::channel(2);
    let [signals, own, changed] = Signals::shared();
    let rows = Arc::new(Mutex::new(0));
    let held = rows.clone().lock_owned().await;
    let audit = tokio::spawn(named("audit", async move {
        while let Some(id) = next(&mut rx, &own).await {
            own.is_busy_after_poll();
            let locked = tokio::time::timeout(Duration::from_secs(600), rows.lock());
            *locked.await.unwrap() = id; // @timeout_lock
        }
    }));
    tokio::spawn(named("backup", async move {
        changed.overwritten().await;
        drop(held); // @timeout_released
    }));
    fed(orders, audit, &signals).await;
}

#[tokio::test]
async fn futures_queue() {
    use futures::{SinkExt, StreamExt};
    let _recorder = Recorder::for_test("futures_queue");
    let (orders, mut rx) = broadcast::channel(2);
    let [signals, own, changed] = Signals::shared();
    let (mut reply, mut replied) = futures::channel::mpsc::channel(1);
    let audit = tokio::spawn(named("audit", async move {
        while next(&mut rx, &own).await.is_some() {
            own.is_busy_after_poll();
            replied.next().await; // @futures_next
        }
    }));
    tokio::spawn(named("clerk", async move {
        changed.overwritten().await;
        reply.send(1).await.unwrap(); // @futures_replied
    }));
    fed(orders, audit, &signals).await;
}

/// What an order is checked by.
trait Check: Send {
    fn check(&self) -> Pin<Box<dyn Future<Output = ()> + Send + '_>>;
}

/// A check that waits for a bell.
struct Rung(Arc<Notify>);

impl Check for Rung {
    fn check(&self) -> Pin<Box<dyn Future<Output = ()> + Send + '_>> {
        Box::pin(async move {
            self.0.notified().await; // @boxed_waits
        })
    }
}

#[tokio::test(flavor = "multi_thread", worker_threads = 1)]
async fn boxed_check() {
    let _recorder = Recorder::for_test("boxed_check");
    let (orders, mut rx) = broadcast::channel(2);
    let [signals, own, changed] = Signals::shared();
    let bell = Arc::new(Notify::new());
    let checks: Vec<Box<dyn Check + Sync>> = vec![Box::new(Rung(bell.clone()))];
    let audit = tokio::spawn(named("audit", async move {
        while next(&mut rx, &own).await.is_some() {
            own.is_busy_after_poll();
            for check in &checks {
                check.check().await;
            }
        }
    }));
    tokio::spawn(named("ringer", async move {
        changed.overwritten().await;
        bell.notify_one(); // @boxed_rung
    }));
    fed(orders, audit, &signals).await;
}

#[tokio::test(flavor = "multi_thread", worker_threads = 1)]
async fn never_gives_way() {
    let _recorder = Recorder::for_test("never_gives_way");
    let (orders, mut rx) = broadcast::channel(2);
    let [signals, own, loops] = Signals::shared();
    let audit = tokio::spawn(named("audit", async move {
        while next(&mut rx, &own).await.is_some() {
            own.is_busy_after_poll();
        }
    }));
    let (begins, has_begun) = tokio::sync::oneshot::channel();
    let endless = async move {
        begins.send(()).unwrap();
        loops.busy().await;
        loops.is_busy_now();
        let (lines, mut written) = mpsc::unbounded_channel();
        // Each await is ready at once, and without a budget none gives way.
        while !loops.has_overwritten() {
            lines.send(1).unwrap();
            written.recv().await.unwrap();
        }
    };
    tokio::spawn(named("import", tokio::task::unconstrained(endless)));
    has_begun.await.unwrap();
    fed_by_thread(orders, audit, &signals).await;
}

#[tokio::test]
async fn two_in_one_task() {
    let _recorder = Recorder::for_test("two_in_one_task");
    let (orders, mut rx) = broadcast::channel(2);
    let [signals, own, changed] = Signals::shared();
    let bell = Arc::new(Notify::new());
    let rung = bell.clone();
    tokio::spawn(named("feed", feed(orders, signals.clone())));
    let audit = named("audit", async move {
        while next(&mut rx, &own).await.is_some() {
            own.is_busy_after_poll();
            rung.notified().await; // @one_task_waits
        }
    });
    let keeper = named("keeper", async move {
        changed.overwritten().await;
        bell.notify_one(); // @one_task_rung
    });
    let both = tokio::spawn(async move {
        tokio::join!(audit, keeper);
    });
    audited(both, &signals).await;
}
