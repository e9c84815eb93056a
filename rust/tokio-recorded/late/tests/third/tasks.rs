//! What tasks do: they work, block, send bursts, keep a worker, are timed, or wait for each other.

use futures::StreamExt;
use late::events::{Signals, audited, fed, fed_by_thread, feed, feed_on_thread, next};
use std::sync::Arc;
use std::time::Duration;
use tokio::sync::broadcast::error::{RecvError, TryRecvError};
use tokio::sync::{Mutex, broadcast, mpsc, oneshot, watch};
use tokio::time::MissedTickBehavior;
use tokio_stream::wrappers::{BroadcastStream, UnboundedReceiverStream};
use yovanelum::{Recorder, named};

/// Each order is served with a ticket, and the office draws tickets late.
#[tokio::test]
async fn tickets_zipped() {
    let _recorder = Recorder::for_test("tickets_zipped");
    let (orders, rx) = broadcast::channel(2);
    let [signals, own, changed] = Signals::shared();
    let (tickets, drawn) = mpsc::unbounded_channel();
    let counter = tokio::spawn(named("counter", async move {
        let orders = BroadcastStream::new(rx).inspect(|_| own.is_busy_after_poll());
        let mut served = Box::pin(orders.zip(UnboundedReceiverStream::new(drawn)));
        let mut done = vec![];
        loop {
            let pair = served.next().await; // @ticket_awaited
            match pair {
                Some((Ok(order), _)) => done.push(order),
                Some((Err(_), _)) | None => return done,
            }
        }
    }));
    tokio::spawn(named("office", async move {
        changed.overwritten().await;
        for ticket in 0..2 {
            tickets.send(ticket).unwrap(); // @ticket_drawn
        }
    }));
    tokio::spawn(named("feed", feed(orders, signals.clone())));
    assert_eq!(counter.await.unwrap(), [0, 1, 2, 3, 4, 5]);
}

/// Orders go to a printer by a sink, which is full.
#[tokio::test(flavor = "multi_thread", worker_threads = 1)]
async fn lines_forwarded() {
    let _recorder = Recorder::for_test("lines_forwarded");
    let (orders, rx) = broadcast::channel(2);
    let [signals, own, changed] = Signals::shared();
    let (mut lines, mut printed) = futures::channel::mpsc::channel(1);
    while lines.try_send(99).is_ok() {}
    let spool = tokio::spawn(named("spool", async move {
        let received = futures::stream::unfold((rx, own), |(mut rx, own)| async move {
            let id = next(&mut rx, &own).await?;
            own.is_busy_after_poll();
            Some((Ok(id), (rx, own)))
        });
        let forwarded = received.forward(lines).await; // @lines_forwarded
        forwarded.unwrap();
    }));
    tokio::spawn(named("printer", async move {
        changed.overwritten().await;
        loop {
            let line = printed.next().await; // @line_taken
            if line.is_none() {
                return;
            }
        }
    }));
    fed(orders, spool, &signals).await;
}

/// A relay sends on what it is given, each line by an await, and six lines are there at once.
#[tokio::test]
async fn lines_relayed() {
    let _recorder = Recorder::for_test("lines_relayed");
    let (orders, mut rx) = broadcast::channel(2);
    let [signals, own, collects] = Signals::shared();
    let (lines, mut queue) = mpsc::channel(8);
    let audit = tokio::spawn(named("audit", async move {
        while next(&mut rx, &own).await.is_some() {
            own.is_busy_after_poll();
        }
    }));
    tokio::spawn(named("relay", async move {
        loop {
            let line = queue.recv().await; // @relay_waits
            match line {
                Some(id) => orders.send(id).unwrap(), // @relay_sent
                None => return,
            };
        }
    }));
    tokio::spawn(named("collector", async move {
        lines.send(0).await.unwrap();
        collects.busy().await;
        for id in 1..=6 {
            lines.try_send(id).unwrap(); // @lines_collected
        }
    }));
    audited(audit, &signals).await;
}

/// Sends all that there is.
async fn produce(orders: broadcast::Sender<u32>) {
    for id in 0..5 {
        orders.send(id).unwrap();
    }
}

/// Receives until there is no more.
async fn consume(mut orders: broadcast::Receiver<u32>) -> Vec<u32> {
    let mut received = vec![];
    while let Ok(id) = orders.recv().await {
        received.push(id);
    }
    received
}

/// Both halves are joined in one task, so one runs after the other.
#[tokio::test]
async fn halves_joined() {
    let _recorder = Recorder::for_test("halves_joined");
    let (orders, rx) = broadcast::channel(2);
    let ((), received) = tokio::join!(produce(orders), consume(rx));
    assert_eq!(received, [0, 1, 2, 3, 4]);
}

/// A cleaner counts in a registry behind a lock of std, which a thread has: the only worker is
/// blocked.
#[tokio::test(flavor = "multi_thread", worker_threads = 1)]
async fn registry_locked() {
    let _recorder = Recorder::for_test("registry_locked");
    let (orders, mut rx) = broadcast::channel(2);
    let signals = Signals::new();
    let (own, changed, cleans) = (signals.clone(), signals.clone(), signals.clone());
    let registry = Arc::new(std::sync::Mutex::new(0));
    let loaded = registry.clone();
    let (begins, has_begun) = std::sync::mpsc::channel();
    let load = std::thread::spawn(move || {
        let registry = loaded.lock().unwrap();
        begins.send(()).unwrap();
        changed.block_until_overwritten();
        drop(registry);
    });
    has_begun.recv().unwrap();
    let (asks, mut asked) = mpsc::channel(8);
    tokio::spawn(named("cleaner", async move {
        loop {
            let order = asked.recv().await; // @cleaner_asked
            if order.is_none() {
                return;
            }
            cleans.is_busy_now();
            *registry.lock().unwrap() += 1;
        }
    }));
    let audit = tokio::spawn(named("audit", async move {
        while let Some(id) = next(&mut rx, &own).await {
            asks.send(id).await.unwrap();
        }
    }));
    let thread = feed_on_thread(orders, signals.clone());
    audited(audit, &signals).await;
    load.join().unwrap();
    thread.join().unwrap();
}

/// A poller looks for orders at each tick, and works on those that are there.
#[tokio::test(flavor = "multi_thread", worker_threads = 1)]
async fn polled_by_ticks() {
    let recorder = Recorder::for_test("polled_by_ticks");
    let (orders, mut rx) = broadcast::channel(2);
    recorder.show(&orders, |id| format!("order {id}"));
    let signals = Signals::new();
    let own = signals.clone();
    let poller = tokio::spawn(named("poller", async move {
        let mut ticks = tokio::time::interval(Duration::from_millis(20));
        loop {
            let tried = rx.try_recv(); // @poller_tried
            match tried {
                Ok(_) => {
                    own.is_busy_now();
                    own.block_until_overwritten();
                }
                Err(TryRecvError::Empty) => drop(ticks.tick().await),
                Err(ended) => return ended,
            }
        }
    }));
    let thread = feed_on_thread(orders, signals.clone());
    assert_eq!(poller.await.unwrap(), TryRecvError::Closed);
    thread.join().unwrap();
}

/// An import sends an order and then computes. What it has woken is next on its own worker, from
/// which the other worker doesn't take it.
#[tokio::test(flavor = "multi_thread", worker_threads = 2)]
async fn worker_kept() {
    let _recorder = Recorder::for_test("worker_kept");
    let (orders, mut rx) = broadcast::channel(2);
    let [signals, own, imports] = Signals::shared();
    let imported = orders.clone();
    let (begins, has_begun) = oneshot::channel();
    let audit = tokio::spawn(named("audit", async move {
        while next(&mut rx, &own).await.is_some() {
            own.is_busy_after_poll();
        }
    }));
    tokio::spawn(named("import", async move {
        // The same worker runs it once the import waits.
        tokio::spawn(async move { begins.send(()).unwrap() });
        imports.busy().await;
        imported.send(100).unwrap();
        imports.is_busy_now();
        imports.block_until_overwritten();
    }));
    has_begun.await.unwrap();
    fed_by_thread(orders, audit, &signals).await;
}

/// A ledger of old code reads orders on a thread that may block, and works on each.
#[tokio::test]
async fn ledger_reads() {
    let recorder = Recorder::for_test("ledger_reads");
    let (orders, mut rx) = broadcast::channel(2);
    recorder.show(&orders, |id| format!("order {id}"));
    let signals = Signals::new();
    let own = signals.clone();
    let reads = move || {
        loop {
            let received = rx.blocking_recv(); // @ledger_received
            if let Err(ended) = received {
                return ended;
            }
            own.is_busy_now();
            own.block_until_overwritten();
        }
    };
    let ledger = tokio::task::spawn_blocking(reads);
    let thread = feed_on_thread(orders, signals.clone());
    assert_eq!(ledger.await.unwrap(), RecvError::Closed);
    thread.join().unwrap();
}

/// What a task calls isn't async, and blocks on a lock that is.
#[tokio::test(flavor = "multi_thread", worker_threads = 2)]
async fn rates_blocked_on() {
    let recorder = Recorder::for_test("rates_blocked_on");
    let (orders, mut rx) = broadcast::channel(2);
    recorder.show(&orders, |id| format!("order {id}"));
    let [signals, own, changed] = Signals::shared();
    let rates = Arc::new(Mutex::new(7));
    let mut held = rates.clone().lock_owned().await;
    let rate = move || *futures::executor::block_on(rates.lock());
    let exchange = tokio::spawn(named("exchange", async move {
        while next(&mut rx, &own).await.is_some() {
            own.is_busy_now();
            assert_eq!(rate(), 8);
        }
    }));
    tokio::spawn(named("reload", async move {
        changed.overwritten().await;
        *held += 1;
    }));
    fed_by_thread(orders, exchange, &signals).await;
}

/// A preview of a text is rendered on a thread that may block, while the text changes.
#[tokio::test]
async fn preview_rendered() {
    let _recorder = Recorder::for_test("preview_rendered");
    let (text, mut rx) = watch::channel(0);
    let signals = Signals::new();
    let own = signals.clone();
    let preview = tokio::spawn(named("preview", async move {
        let mut shown = vec![];
        while rx.changed().await.is_ok() {
            shown.push(*rx.borrow_and_update());
            let renders = own.clone();
            let render = move || renders.block_until_overwritten();
            let rendered = tokio::task::spawn_blocking(render); // @preview_spawned
            own.is_busy_after_poll();
            rendered.await.unwrap(); // @preview_rendered
        }
        shown
    }));
    tokio::spawn(named("author", async move {
        text.send(1).unwrap();
        signals.busy().await;
        for now in 2..5 {
            text.send(now).unwrap();
            tokio::task::yield_now().await;
        }
        signals.are_overwritten();
    }));
    assert_eq!(preview.await.unwrap(), [1, 2, 3, 4]);
}

/// A pricer needs the rate for its second quote, which an importer has until an upload comes.
#[tokio::test]
async fn second_quote() {
    let _recorder = Recorder::for_test("second_quote");
    let (quotes, mut rx) = broadcast::channel(4);
    let rate = Arc::new(Mutex::new(7));
    let imported = rate.clone();
    let (_uploads, mut uploaded) = mpsc::channel::<u32>(1);
    tokio::spawn(named("importer", async move {
        let mut rate = imported.lock().await;
        let upload = uploaded.recv().await; // @upload_awaited
        *rate = upload.unwrap();
    }));
    tokio::spawn(named("pricer", async move {
        quotes.send(1).unwrap();
        let rate = rate.lock().await; // @rate_locked
        quotes.send(*rate).unwrap();
    }));
    assert_eq!(rx.recv().await, Ok(1));
    let second = tokio::time::timeout(Duration::from_millis(200), rx.recv()).await;
    assert_eq!(second.expect("a second quote"), Ok(7));
}

/// A worker joins its logger, which waits for lines as long as the worker could send one.
#[tokio::test]
async fn logger_joined() {
    let _recorder = Recorder::for_test("logger_joined");
    let (ends, mut rx) = broadcast::channel(2);
    tokio::spawn(named("worker", async move {
        let (lines, mut logged) = mpsc::channel(8);
        let logger = tokio::spawn(named("logger", async move {
            let mut written = vec![];
            loop {
                let line = logged.recv().await; // @line_awaited
                match line {
                    Some(line) => written.push(line),
                    None => return written,
                }
            }
        }));
        lines.send("begun").await.unwrap();
        let written = logger.await.unwrap(); // @logger_joined
        drop(lines);
        ends.send(written).unwrap();
    }));
    let end = tokio::time::timeout(Duration::from_millis(200), rx.recv()).await;
    assert_eq!(end.expect("an end").unwrap(), ["begun"]);
}

/// How often something may be done.
struct Pace(tokio::time::Interval);

impl Pace {
    fn each(period: Duration) -> Pace {
        let mut ticks = tokio::time::interval_at(tokio::time::Instant::now(), period);
        ticks.set_missed_tick_behavior(MissedTickBehavior::Delay);
        Pace(ticks)
    }

    async fn turn(&mut self) {
        self.0.tick().await; // @export_paced
    }
}

/// An export takes one order at each turn, and orders come more often. The clock is paused.
#[tokio::test(start_paused = true)]
async fn export_paced() {
    let _recorder = Recorder::for_test("export_paced");
    let (orders, mut rx) = broadcast::channel(2);
    let signals = Signals::new();
    let own = signals.clone();
    let export = tokio::spawn(named("export", async move {
        let mut pace = Pace::each(Duration::from_millis(100));
        pace.turn().await;
        while next(&mut rx, &own).await.is_some() {
            pace.turn().await;
        }
    }));
    tokio::spawn(named("feed", async move {
        for id in 0..8 {
            let _ = orders.send(id);
            tokio::time::sleep(Duration::from_millis(30)).await;
        }
    }));
    audited(export, &signals).await;
}
