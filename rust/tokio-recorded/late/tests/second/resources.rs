//! What a receiver waits for: locks, permits, other channels, sockets, pipes and threads.

use late::events::{Signals, audited, fed, next};
use std::sync::Arc;
use std::time::Duration;
use tokio::io::{AsyncBufReadExt, AsyncWriteExt, BufReader};
use tokio::sync::{Barrier, Notify, OnceCell, RwLock, Semaphore};
use tokio::sync::{broadcast, mpsc, oneshot, watch};
use yovanelum::{Recorder, named};

/// Two pages of a chat room read its members. Who enters waits for both.
#[tokio::test(flavor = "multi_thread", worker_threads = 2)]
async fn starved_by_readers() {
    let _recorder = Recorder::for_test("starved_by_readers");
    let (entered, mut rx) = broadcast::channel(2);
    let [signals, own, changed] = Signals::shared();
    let members = Arc::new(RwLock::new(vec![]));
    let (listed, searched) = (members.clone(), members.clone());
    let (listed, searched) = (listed.read_owned().await, searched.read_owned().await);
    let (done, is_done) = oneshot::channel();
    let log = tokio::spawn(named("log", async move {
        while let Some(id) = next(&mut rx, &own).await {
            own.is_busy_after_poll();
            let mut members = members.clone().write_owned().await; // @starved_writes
            members.push(id);
        }
    }));
    tokio::spawn(named("listing", async move {
        changed.overwritten().await;
        drop(listed);
        done.send(()).unwrap();
    }));
    tokio::spawn(named("search", async move {
        is_done.await.unwrap();
        drop(searched); // @starved_released
    }));
    fed(entered, log, &signals).await;
}

/// A pool of one worker: the dispatcher has a permit before it takes an order, and the job gives
/// it back.
#[tokio::test(flavor = "multi_thread", worker_threads = 1)]
async fn pool_of_one() {
    let _recorder = Recorder::for_test("pool_of_one");
    let (orders, mut rx) = broadcast::channel(2);
    let [signals, own, changed] = Signals::shared();
    let pool = Arc::new(Semaphore::new(1));
    let dispatcher = tokio::spawn(named("dispatcher", async move {
        loop {
            let permit = pool.clone().acquire_owned().await.unwrap(); // @pool_acquired
            if next(&mut rx, &own).await.is_none() {
                return;
            }
            let changed = changed.clone();
            tokio::spawn(named("job", async move {
                let _permit = permit;
                changed.overwritten().await;
            })); // @pool_given_back
            own.is_busy_after_poll();
        }
    }));
    fed(orders, dispatcher, &signals).await;
}

/// An actor that is asked by its queue, with a place for the reply.
struct Ledger(mpsc::Sender<oneshot::Sender<u32>>);

impl Ledger {
    async fn balance(&self) -> Option<u32> {
        let (reply, replied) = oneshot::channel();
        self.0.send(reply).await.ok()?;
        replied.await.ok() // @ledger_replied
    }
}

/// The ledger drops the request in the end, and so tells that there is no balance.
#[tokio::test]
async fn request_dropped() {
    let _recorder = Recorder::for_test("request_dropped");
    let (orders, mut rx) = broadcast::channel(2);
    let [signals, own, changed] = Signals::shared();
    let (asks, mut asked) = mpsc::channel(8);
    tokio::spawn(named("ledger", async move {
        while let Some(request) = asked.recv().await {
            changed.overwritten().await;
            drop(request); // @ledger_refused
        }
    }));
    let audit = tokio::spawn(named("audit", async move {
        let ledger = Ledger(asks);
        while next(&mut rx, &own).await.is_some() {
            own.is_busy_after_poll();
            let asked = tokio::time::timeout(Duration::from_secs(600), ledger.balance());
            assert_eq!(asked.await, Ok(None));
        }
    }));
    fed(orders, audit, &signals).await;
}

async fn price(priced: &Notify) -> u32 {
    priced.notified().await;
    7
}

async fn stock(stocked: &mut mpsc::UnboundedReceiver<u32>) -> u32 {
    stocked.recv().await.unwrap() // @stock_received
}

/// A page needs the price and the stock: the price is known soon, the stock late.
#[tokio::test]
async fn price_and_stock() {
    let _recorder = Recorder::for_test("price_and_stock");
    let (orders, mut rx) = broadcast::channel(2);
    let [signals, own, changed] = Signals::shared();
    let (asks, priced) = (Arc::new(Notify::new()), Arc::new(Notify::new()));
    let (asked, prices) = (asks.clone(), priced.clone());
    let (stocks, mut stocked) = mpsc::unbounded_channel();
    tokio::spawn(named("prices", async move {
        asked.notified().await;
        prices.notify_one();
    }));
    tokio::spawn(named("warehouse", async move {
        changed.overwritten().await;
        stocks.send(3).unwrap(); // @stock_sent
    }));
    let page = tokio::spawn(named("page", async move {
        while next(&mut rx, &own).await.is_some() {
            asks.notify_one();
            own.is_busy_after_poll();
            let both = tokio::join!(price(&priced), stock(&mut stocked));
            assert_eq!(both, (7, 3));
        }
    }));
    fed(orders, page, &signals).await;
}

/// Labels go to a printer by a queue of one, which is full.
#[tokio::test(flavor = "multi_thread", worker_threads = 2)]
async fn labels_printed() {
    let _recorder = Recorder::for_test("labels_printed");
    let (orders, mut rx) = broadcast::channel(2);
    let [signals, own, changed] = Signals::shared();
    let (labels, mut printed) = mpsc::channel(1);
    labels.try_send(99).unwrap();
    let packer = tokio::spawn(named("packer", async move {
        let most = Duration::from_secs(600);
        while let Some(id) = next(&mut rx, &own).await {
            own.is_busy_after_poll();
            labels.send_timeout(id, most).await.unwrap(); // @label_sent
        }
    }));
    tokio::spawn(named("printer", async move {
        changed.overwritten().await;
        while printed.recv().await.is_some() {} // @label_printed
    }));
    fed(orders, packer, &signals).await;
}

/// What a member of a cluster is.
#[derive(Clone, Copy, Debug, PartialEq, Eq)]
enum Role {
    Follower,
    Candidate,
    Leader,
}

/// Only the leader applies orders: it waits until it is elected.
#[tokio::test(flavor = "multi_thread", worker_threads = 1)]
async fn leader_elected() {
    let _recorder = Recorder::for_test("leader_elected");
    let (orders, mut rx) = broadcast::channel(2);
    let (roles, mut role) = watch::channel(Role::Follower);
    let [signals, own, changed] = Signals::shared();
    let member = tokio::spawn(named("member", async move {
        while next(&mut rx, &own).await.is_some() {
            own.is_busy_after_poll();
            let elected = role.wait_for(|role| *role == Role::Leader).await; // @leader_awaited
            assert!(elected.is_ok());
        }
    }));
    tokio::spawn(named("election", async move {
        changed.overwritten().await;
        for now in [Role::Candidate, Role::Leader] {
            roles.send(now).unwrap(); // @leader_elected
            tokio::task::yield_now().await;
        }
        roles.closed().await;
    }));
    fed(orders, member, &signals).await;
}

/// A chat by lines: an order is answered by a line of the peer.
#[tokio::test(flavor = "multi_thread", worker_threads = 1)]
async fn chat_lines() {
    let _recorder = Recorder::for_test("chat_lines");
    let listener = tokio::net::TcpListener::bind("127.0.0.1:0").await.unwrap();
    let connects = tokio::net::TcpStream::connect(listener.local_addr().unwrap());
    let (stream, accepted) = tokio::join!(connects, listener.accept());
    let (stream, (mut accepted, _)) = (stream.unwrap(), accepted.unwrap());
    let (orders, mut rx) = broadcast::channel(2);
    let [signals, own, changed] = Signals::shared();
    let bot = tokio::spawn(named("bot", async move {
        let mut lines = BufReader::new(stream).lines();
        while next(&mut rx, &own).await.is_some() {
            own.is_busy_after_poll();
            let line = lines.next_line().await.unwrap(); // @chat_line
            assert_eq!(line.as_deref(), Some("done"));
        }
    }));
    tokio::spawn(named("peer", async move {
        changed.overwritten().await;
        accepted.write_all(b"done\n").await.unwrap();
    }));
    fed(orders, bot, &signals).await;
}

/// A scale writes what it weighs into a named pipe: a thread of the runtime reads it.
#[tokio::test]
async fn pipe_read() {
    let _recorder = Recorder::for_test("pipe_read");
    let pipe = std::env::temp_dir().join(format!("late-scale-{}", std::process::id()));
    let made = std::process::Command::new("mkfifo").arg(&pipe).status();
    assert!(made.unwrap().success());
    let (orders, mut rx) = broadcast::channel(2);
    let [signals, own, changed] = Signals::shared();
    let scale = pipe.clone();
    let packer = tokio::spawn(named("packer", async move {
        while next(&mut rx, &own).await.is_some() {
            own.is_busy_after_poll();
            let weight = tokio::fs::read_to_string(&pipe).await.unwrap(); // @pipe_read
            assert_eq!(weight, "12 kg");
            std::fs::remove_file(&pipe).unwrap();
        }
    }));
    tokio::spawn(named("scale", async move {
        changed.overwritten().await;
        std::fs::write(&scale, "12 kg").unwrap();
    }));
    fed(orders, packer, &signals).await;
}

/// Pictures become small on a thread that may block, which tells by a queue that it is done.
#[tokio::test]
async fn thumbnails() {
    let _recorder = Recorder::for_test("thumbnails");
    let (pictures, mut rx) = broadcast::channel(2);
    let signals = Signals::new();
    let own = signals.clone();
    let gallery = tokio::spawn(named("gallery", async move {
        let (small, mut made) = mpsc::channel(1);
        while let Some(id) = next(&mut rx, &own).await {
            let (small, changed) = (small.clone(), own.clone());
            let shrink = move || {
                changed.block_until_overwritten();
                small.blocking_send(id).unwrap(); // @thumbnail_sent
            };
            tokio::task::spawn_blocking(shrink); // @thumbnail_spawned
            own.is_busy_after_poll();
            assert_eq!(made.recv().await, Some(id)); // @thumbnail_received
        }
    }));
    fed(pictures, gallery, &signals).await;
}

/// A place where all shards of a snapshot meet.
struct Checkpoint(Barrier);

impl Checkpoint {
    async fn reached(&self) {
        self.0.wait().await; // @checkpoint
    }
}

/// The journal goes on once both shards have reached the checkpoint.
#[tokio::test(flavor = "multi_thread", worker_threads = 1)]
async fn shards_meet() {
    let _recorder = Recorder::for_test("shards_meet");
    let (orders, mut rx) = broadcast::channel(2);
    let [signals, own, changed] = Signals::shared();
    let all = Arc::new(Checkpoint(Barrier::new(3)));
    let (first, second) = (all.clone(), all.clone());
    let journal = tokio::spawn(named("journal", async move {
        while next(&mut rx, &own).await.is_some() {
            own.is_busy_after_poll();
            all.reached().await;
        }
    }));
    tokio::spawn(named("shard 1", async move { first.reached().await }));
    tokio::spawn(named("shard 2", async move {
        changed.overwritten().await;
        second.reached().await;
    }));
    fed(orders, journal, &signals).await;
}

async fn connect(accepted: &Notify) -> Result<u32, ()> {
    accepted.notified().await; // @session_waits
    Ok(42)
}

/// The first order makes the session that all share, itself: nobody else does.
#[tokio::test]
async fn session_made() {
    let _recorder = Recorder::for_test("session_made");
    let (orders, mut rx) = broadcast::channel(2);
    let [signals, own, changed] = Signals::shared();
    let accepted = Arc::new(Notify::new());
    let accepts = accepted.clone();
    let client = tokio::spawn(named("client", async move {
        let session = OnceCell::new();
        while next(&mut rx, &own).await.is_some() {
            own.is_busy_after_poll();
            let number = session.get_or_try_init(|| connect(&accepted)).await;
            assert_eq!(number, Ok(&42));
        }
    }));
    tokio::spawn(named("server", async move {
        changed.overwritten().await;
        accepts.notify_waiters(); // @session_accepted
    }));
    fed(orders, client, &signals).await;
}

/// Approvals are forwarded by a task that is aborted before it forwards one.
#[tokio::test]
async fn relay_aborted() {
    let _recorder = Recorder::for_test("relay_aborted");
    let (orders, mut rx) = broadcast::channel(2);
    let [signals, own, changed] = Signals::shared();
    let (_approvals, mut approved) = mpsc::channel::<u32>(8);
    let (forwards, mut forwarded) = mpsc::channel(8);
    let relay = tokio::spawn(named("relay", async move {
        while let Some(id) = approved.recv().await {
            forwards.send(id).await.unwrap();
        }
    }));
    let audit = tokio::spawn(named("audit", async move {
        while next(&mut rx, &own).await.is_some() {
            own.is_busy_after_poll();
            assert_eq!(forwarded.recv().await, None); // @relay_received
        }
    }));
    tokio::spawn(named("shutdown", async move {
        changed.overwritten().await;
        relay.abort();
    }));
    fed(orders, audit, &signals).await;
}

/// Sends each route to who listens, one in a turn, and reads the table until all were sent.
async fn publish(routes: Arc<RwLock<Vec<u32>>>, sends: broadcast::Sender<u32>) {
    let table = routes.read().await;
    for route in table.iter() {
        sends.send(*route).unwrap();
        tokio::task::yield_now().await;
    }
    drop(table); // @routes_released
}

/// What changes the table for a route waits until the publisher, whose routes it receives, has
/// read all of it.
#[tokio::test]
async fn table_read_across() {
    let _recorder = Recorder::for_test("table_read_across");
    let (sends, mut rx) = broadcast::channel(2);
    let signals = Signals::new();
    let own = signals.clone();
    let routes = Arc::new(RwLock::new(vec![10, 11, 12, 13, 14, 15]));
    let table = routes.clone();
    let router = tokio::spawn(named("router", async move {
        while let Some(route) = next(&mut rx, &own).await {
            table.write().await.retain(|it| *it != route); // @routes_written
        }
    }));
    tokio::spawn(named("publisher", publish(routes, sends)));
    audited(router, &signals).await;
}

/// The branch of pings waits for the pong before it receives again.
#[tokio::test]
async fn pings_first() {
    let _recorder = Recorder::for_test("pings_first");
    let (orders, mut rx) = broadcast::channel(2);
    let [signals, own, changed] = Signals::shared();
    let (hello, mut greeted) = mpsc::channel(8);
    let (pings, mut pinged) = mpsc::channel(8);
    let client = tokio::spawn(named("client", async move {
        loop {
            tokio::select! {
                order = next(&mut rx, &own) => match order {
                    Some(id) => hello.send(id).await.unwrap(),
                    None => return,
                },
                Some(ponged) = pinged.recv() => {
                    let ponged: oneshot::Receiver<()> = ponged;
                    own.is_busy_after_poll();
                    ponged.await.unwrap(); // @pong_awaited
                }
            }
        }
    }));
    tokio::spawn(named("gateway", async move {
        while greeted.recv().await.is_some() {
            let (pong, ponged) = oneshot::channel();
            pings.send(ponged).await.unwrap();
            changed.overwritten().await;
            pong.send(()).unwrap(); // @pong_sent
        }
    }));
    fed(orders, client, &signals).await;
}
