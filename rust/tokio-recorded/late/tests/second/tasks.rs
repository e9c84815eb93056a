//! What tasks do: they work, block, send bursts, end, are timed, or aren't polled.

use late::Sent;
use late::events::{Signals, audited, fed, fed_by_thread, feed_on_thread, next};
use std::sync::Arc;
use std::time::Duration;
use tokio::sync::{Mutex, Notify, broadcast, mpsc, oneshot};
use tokio::time::MissedTickBehavior;
use yovanelum::{Recorder, named};

/// How many pieces a warehouse has. The third one answers late.
async fn pieces_in(warehouse: u32, signals: Arc<Signals>) -> u32 {
    if warehouse == 3 {
        signals.overwritten().await;
    }
    warehouse * 10
}

/// Three warehouses are asked at once, and all have to answer.
#[tokio::test]
async fn warehouses_asked() {
    let _recorder = Recorder::for_test("warehouses_asked");
    let (orders, mut rx) = broadcast::channel(2);
    let signals = Signals::new();
    let own = signals.clone();
    let shop = tokio::spawn(named("shop", async move {
        while next(&mut rx, &own).await.is_some() {
            let mut asked = tokio::task::JoinSet::new();
            for warehouse in 1..=3 {
                let name = format!("warehouse {warehouse}");
                asked.spawn(named(&name, pieces_in(warehouse, own.clone())));
            }
            own.is_busy_after_poll();
            let mut pieces = 0;
            while pieces < 60 {
                let answer = asked.join_next().await; // @warehouse_joined
                pieces += answer.unwrap().unwrap();
            }
        }
    }));
    fed(orders, shop, &signals).await;
}

/// Two pictures are uploaded at once at most, and both wait for the store.
#[tokio::test]
async fn uploads_at_once() {
    use futures::StreamExt;
    let _recorder = Recorder::for_test("uploads_at_once");
    let (pictures, rx) = broadcast::channel(2);
    let [signals, own, changed] = Signals::shared();
    let store = Arc::new(Notify::new());
    let is_ready = store.clone();
    let uploader = tokio::spawn(named("uploader", async move {
        let received = futures::stream::unfold((rx, own.clone()), |(mut rx, own)| async move {
            let id = next(&mut rx, &own).await;
            id.map(|id| (id, (rx, own)))
        });
        let uploads = received.map(move |id| {
            if id == 1 {
                own.is_busy_after_poll();
            }
            let is_ready = is_ready.clone();
            async move { is_ready.notified().await }
        });
        let done = uploads.buffer_unordered(2);
        done.for_each(|()| std::future::ready(())).await; // @uploads_done
    }));
    tokio::spawn(named("store", async move {
        changed.overwritten().await;
        store.notify_waiters(); // @uploads_stored
    }));
    let sends = signals.clone();
    tokio::spawn(named("feed", async move {
        pictures.send(0).unwrap();
        tokio::task::yield_now().await;
        pictures.send(1).unwrap();
        sends.busy().await;
        for id in 2..7 {
            pictures.send(id).unwrap();
            tokio::task::yield_now().await;
        }
        sends.are_overwritten();
    }));
    audited(uploader, &signals).await;
}

/// A service that takes requests and never answers.
struct Quotes(mpsc::Sender<oneshot::Sender<u32>>);

impl Quotes {
    async fn quote(&self) -> Option<u32> {
        let (reply, replied) = oneshot::channel();
        self.0.send(reply).await.ok()?;
        replied.await.ok()
    }
}

/// The client tries three times. The clock is paused.
#[tokio::test(start_paused = true)]
async fn tried_again() {
    let _recorder = Recorder::for_test("tried_again");
    let (orders, mut rx) = broadcast::channel(2);
    let signals = Signals::new();
    let own = signals.clone();
    let (asks, mut asked) = mpsc::channel(8);
    tokio::spawn(named("service", async move {
        let mut unanswered = vec![];
        while let Some(request) = asked.recv().await {
            unanswered.push(request);
        }
    }));
    let client = tokio::spawn(named("client", async move {
        let quotes = Quotes(asks);
        let most = Duration::from_millis(250);
        while next(&mut rx, &own).await.is_some() {
            for _attempt in 0..3 {
                let quote = tokio::time::timeout(most, quotes.quote());
                assert!(quote.await.is_err()); // @quote_timed
            }
        }
    }));
    tokio::spawn(named("feed", async move {
        for id in 0..8 {
            orders.send(id).unwrap();
            tokio::time::sleep(Duration::from_millis(100)).await;
        }
    }));
    audited(client, &signals).await;
}

/// A sensor sends at each tick, and a snapshot has its state for some of them: then it catches up,
/// which an interval does by ticks that are due at once. The clock is paused.
#[tokio::test(start_paused = true)]
async fn ticks_missed() {
    let _recorder = Recorder::for_test("ticks_missed");
    let (values, mut rx) = broadcast::channel(2);
    let signals = Signals::new();
    let own = signals.clone();
    let state = Arc::new(Mutex::new(0));
    let kept = state.clone();
    let screen = tokio::spawn(named("screen", async move {
        while next(&mut rx, &own).await.is_some() {}
    }));
    tokio::spawn(named("snapshot", async move {
        tokio::time::sleep(Duration::from_millis(15)).await;
        let kept = kept.lock().await;
        tokio::time::sleep(Duration::from_millis(60)).await;
        drop(kept); // @ticks_released
    }));
    tokio::spawn(named("sensor", async move {
        let mut ticks = tokio::time::interval(Duration::from_millis(10));
        ticks.set_missed_tick_behavior(MissedTickBehavior::Burst);
        for _tick in 0..12 {
            ticks.tick().await;
            let mut state = state.lock().await; // @ticks_locked
            *state += 1;
            let _ = values.send(*state); // @ticks_sent
        }
    }));
    audited(screen, &signals).await;
}

/// Prices are behind a lock of std, which a thread has: the worker that asks for it is blocked.
#[tokio::test(flavor = "multi_thread", worker_threads = 2)]
async fn prices_locked() {
    let recorder = Recorder::for_test("prices_locked");
    let (orders, mut rx) = broadcast::channel(2);
    recorder.show(&orders, |id| format!("order {id}"));
    let [signals, own, changed] = Signals::shared();
    let prices = Arc::new(std::sync::Mutex::new(7));
    let loaded = prices.clone();
    let (begins, has_begun) = std::sync::mpsc::channel();
    let load = std::thread::spawn(move || {
        let mut prices = loaded.lock().unwrap();
        begins.send(()).unwrap();
        changed.block_until_overwritten();
        *prices += 1;
    });
    has_begun.recv().unwrap();
    let checkout = tokio::spawn(named("checkout", async move {
        while next(&mut rx, &own).await.is_some() {
            own.is_busy_now();
            assert_eq!(*prices.lock().unwrap(), 8);
        }
    }));
    let thread = feed_on_thread(orders, signals.clone());
    audited(checkout, &signals).await;
    load.join().unwrap();
    thread.join().unwrap();
}

/// Writes a page of a report, which takes until orders were overwritten.
fn write_page(signals: &Signals) -> u64 {
    signals.is_busy_now();
    let mut sum = 0_u64;
    while !signals.has_overwritten() {
        sum = sum.wrapping_mul(31).wrapping_add(7);
    }
    sum
}

/// The audit asks for a report, and goes on. The report is written on the only worker.
#[tokio::test(flavor = "multi_thread", worker_threads = 1)]
async fn report_written() {
    let _recorder = Recorder::for_test("report_written");
    let (orders, mut rx) = broadcast::channel(2);
    let [signals, own, writes] = Signals::shared();
    let (jobs, mut queue) = mpsc::channel(8);
    tokio::spawn(named("report", async move {
        loop {
            let order = queue.recv().await; // @report_asked
            if order.is_none() {
                return;
            }
            std::hint::black_box(write_page(&writes));
        }
    }));
    let audit = tokio::spawn(named("audit", async move {
        while let Some(id) = next(&mut rx, &own).await {
            jobs.send(id).await.unwrap();
        }
    }));
    fed_by_thread(orders, audit, &signals).await;
}

/// A thread of old code answers by a queue of std. Other tasks go on beside.
#[tokio::test(flavor = "multi_thread", worker_threads = 2)]
async fn legacy_asked() {
    let recorder = Recorder::for_test("legacy_asked");
    let (orders, mut rx) = broadcast::channel(2);
    recorder.show(&orders, |id| format!("order {id}"));
    let [signals, own, changed] = Signals::shared();
    let (ask, asked) = std::sync::mpsc::channel();
    let (answer, answered) = std::sync::mpsc::channel();
    let legacy = std::thread::spawn(move || {
        for id in asked {
            changed.block_until_overwritten();
            answer.send(id).unwrap();
        }
    });
    let bridge = tokio::spawn(named("bridge", async move {
        while let Some(id) = next(&mut rx, &own).await {
            own.is_busy_now();
            ask.send(id).unwrap();
            let answer = tokio::task::block_in_place(|| answered.recv().unwrap());
            assert_eq!(answer, id);
        }
    }));
    let thread = feed_on_thread(orders, signals.clone());
    audited(bridge, &signals).await;
    legacy.join().unwrap();
    thread.join().unwrap();
}

/// An index takes as long for each document as three more need to be sent: it never catches up.
#[tokio::test(flavor = "multi_thread", worker_threads = 2)]
async fn indexed() {
    let recorder = Recorder::for_test("indexed");
    let (documents, mut rx) = broadcast::channel(4);
    recorder.show(&documents, |id| format!("document {id}"));
    let signals = Signals::new();
    let own = signals.clone();
    let (sent, begun) = (Sent::default(), Sent::default());
    let (written, begins) = (sent.clone(), begun.clone());
    let index = tokio::spawn(named("index", async move {
        while let Some(id) = next(&mut rx, &own).await {
            begins.add();
            written.compute_until(3 * (id + 1));
        }
    }));
    let crawler = std::thread::spawn(move || {
        documents.send(0).unwrap();
        for round in 0..2 {
            while !begun.is(round + 1) {
                std::thread::yield_now();
            }
            for id in 1..=3 {
                documents.send(3 * round + id).unwrap();
                sent.add();
            }
        }
    });
    audited(index, &signals).await;
    crawler.join().unwrap();
}

/// An import sends a batch as it comes.
#[tokio::test]
async fn batch_sent() {
    let _recorder = Recorder::for_test("batch_sent");
    let (orders, mut rx) = broadcast::channel(2);
    let [signals, own, uploads] = Signals::shared();
    let (batches, mut uploaded) = mpsc::channel::<Vec<u32>>(4);
    let audit = tokio::spawn(named("audit", async move {
        while next(&mut rx, &own).await.is_some() {
            own.is_busy_after_poll();
        }
    }));
    tokio::spawn(named("import", async move {
        loop {
            let batch = uploaded.recv().await; // @batch_received
            let Some(batch) = batch else {
                return;
            };
            for id in batch {
                orders.send(id).unwrap(); // @batch_sent
            }
        }
    }));
    tokio::spawn(named("upload", async move {
        batches.send(vec![70]).await.unwrap();
        uploads.busy().await;
        let batch = (71..80).collect();
        batches.send(batch).await.unwrap(); // @batch_uploaded
    }));
    audited(audit, &signals).await;
}

/// Archives what a session has, which takes long.
async fn archive(signals: &Arc<Signals>) {
    signals.is_busy_after_poll();
    signals.overwritten().await;
}

/// A session polls its reader beside commands, but not while it carries out one.
#[tokio::test]
async fn session_archives() {
    let _recorder = Recorder::for_test("session_archives");
    let (orders, mut rx) = broadcast::channel(2);
    let [signals, own, serves] = Signals::shared();
    let (commands, mut commanded) = mpsc::channel::<&str>(4);
    let reads = Arc::new(Notify::new());
    let has_read = reads.clone();
    let session = tokio::spawn(named("session", async move {
        let mut reader = Box::pin(named("reader", async move {
            while next(&mut rx, &own).await.is_some() {
                reads.notify_one();
            }
        }));
        loop {
            tokio::select! {
                () = &mut reader => return,
                Some("archive") = commanded.recv() => archive(&serves).await,
            }
        }
    }));
    tokio::spawn(named("user", async move {
        has_read.notified().await;
        commands.send("archive").await.unwrap();
    }));
    fed(orders, session, &signals).await;
}

/// Notices are shown one in 100 ms, by a stream, and come each 10 ms. The clock is paused.
#[tokio::test(start_paused = true)]
async fn notices_throttled() {
    use tokio_stream::StreamExt;
    let _recorder = Recorder::for_test("notices_throttled");
    let (notices, rx) = broadcast::channel(2);
    let screen = tokio::spawn(named("screen", async move {
        let notices = tokio_stream::wrappers::BroadcastStream::new(rx);
        let mut notices = Box::pin(notices.throttle(Duration::from_millis(100)));
        let mut shown = vec![];
        loop {
            let notice = notices.next().await; // @notice_next
            match notice {
                Some(Ok(notice)) => shown.push(notice),
                Some(Err(_)) | None => return shown,
            }
        }
    }));
    tokio::spawn(named("feed", async move {
        for id in 0..12_u32 {
            let _ = notices.send(id);
            tokio::time::sleep(Duration::from_millis(10)).await;
        }
    }));
    assert_eq!(screen.await.unwrap(), (0..12).collect::<Vec<_>>());
}
