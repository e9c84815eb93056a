//! An event bus on tokio's multi-thread runtime: tasks that are cancelled, and `select!`.

use std::process::Command;
use std::time::Duration;
use tokio::runtime::Builder;
use tokio::time::{sleep, timeout};
use yovanelum::broadcast::error::RecvError;
use yovanelum::{Recorder, broadcast, named, watch};

const EVENTS: u64 = 2_000;

/// What a subscriber received, and how much it lost.
#[derive(Debug, Default)]
struct BusTally {
    got: u64,
    lost: u64,
    last: Option<u64>,
}

impl BusTally {
    fn take(&mut self, event: Result<u64, RecvError>) -> bool {
        match event {
            Ok(event) => {
                assert!(self.last < Some(event), "{:?} before {event}", self.last);
                self.last = Some(event);
                self.got += 1;
            }
            Err(RecvError::Lagged(n)) => self.lost += n,
            Err(RecvError::Closed) => return false,
        }
        true
    }
}

/// Receives to the end, each receive raced against others that win now and then.
async fn subscriber(
    mut bus: broadcast::Receiver<u64>,
    mut settings: watch::Receiver<u32>,
) -> BusTally {
    let mut tally = BusTally::default();
    let mut is_set = true;
    loop {
        tokio::select! {
            event = bus.recv() => if !tally.take(event) { return tally },
            changed = settings.changed(), if is_set => is_set = changed.is_ok(),
            () = sleep(Duration::from_micros(50)) => {}
        }
        // A receive that is cancelled before it is done loses nothing.
        if let Ok(event) = timeout(Duration::ZERO, bus.recv()).await
            && !tally.take(event)
        {
            return tally;
        }
    }
}

async fn run() {
    let (bus, first) = broadcast::channel(64);
    let (settings, set) = watch::channel(0);
    let mut subscribers = Vec::new();
    for number in 0..4 {
        let task = subscriber(first.resubscribe(), set.clone());
        subscribers.push(tokio::spawn(named(&format!("subscriber {number}"), task)));
    }
    // One that is cancelled while it waits or works, and not before it has begun.
    let task = subscriber(first.resubscribe(), set.clone());
    let (begin, begun) = tokio::sync::oneshot::channel();
    let cut_off = tokio::spawn(named("cut off", async move {
        begin.send(()).unwrap();
        task.await
    }));
    drop((first, set));
    let publisher = tokio::spawn(named("publisher", async move {
        for event in 0..EVENTS {
            bus.send(event).unwrap();
            if event % 100 == 0 {
                settings.send_replace(event as u32);
                tokio::task::yield_now().await;
            }
        }
    }));
    begun.await.unwrap();
    sleep(Duration::from_millis(1)).await;
    cut_off.abort();
    publisher.await.unwrap();
    for subscriber in subscribers {
        let tally = subscriber.await.unwrap();
        assert_eq!(tally.got + tally.lost, EVENTS, "{tally:?}");
    }
}

#[test]
fn on_a_multi_thread_runtime() {
    let recorder = Recorder::for_test("on_a_multi_thread_runtime");
    Builder::new_multi_thread()
        .worker_threads(4)
        .enable_time()
        .on_thread_start(recorder.on_thread_start())
        .build()
        .unwrap()
        .block_on(run());
    for name in ["publisher", "subscriber 0", "cut off"] {
        assert!(recorder.names().contains(name), "{}", recorder.names());
    }
    let path = std::env::temp_dir().join(format!("yovanelum-tokio-{}.journal", std::process::id()));
    recorder.save(&path).unwrap();
    let ttd = std::env::var_os("YOVANELUM_TTD").expect("set YOVANELUM_TTD to the program ttd");
    let judged = Command::new(ttd).arg("check").arg(&path).output().unwrap();
    assert_eq!(
        String::from_utf8_lossy(&judged.stdout),
        format!("ok {}\n", recorder.len())
    );
    assert!(recorder.len() > EVENTS);
    std::fs::remove_file(&path).unwrap();
    std::fs::remove_file(path.with_extension("names")).unwrap();
}
