//! The same random calls on tokio-stream's streams over tokio's channels, and on these: the same
//! items, and the same wakes.

use crate::random::Random;
use std::pin::Pin;
use std::sync::Arc;
use std::sync::atomic::{AtomicU64, Ordering};
use std::task::{Context, Poll, Wake, Waker};
use tokio_stream::Stream;

/// Counts how often a stream's task is woken.
#[derive(Default)]
struct Woken(AtomicU64);

impl Wake for Woken {
    fn wake(self: Arc<Self>) {
        self.0.fetch_add(1, Ordering::Relaxed);
    }
}

/// A stream with its task.
struct Task<S>(S, Arc<Woken>);

impl<S: Stream + Unpin> Task<S> {
    fn new(stream: S) -> Task<S> {
        Task(stream, Arc::default())
    }

    /// Polls the stream, now and then as another task.
    fn poll(&mut self, random: &mut Random) -> Poll<Option<S::Item>> {
        if random.below(4) == 0 {
            self.1 = Arc::default();
        }
        let waker = Waker::from(self.1.clone());
        Pin::new(&mut self.0).poll_next(&mut Context::from_waker(&waker))
    }
}

fn woken<S>(tasks: &[Task<S>]) -> Vec<u64> {
    let counts = tasks.iter().map(|task| task.1.0.load(Ordering::Relaxed));
    counts.collect()
}

/// Gives a watch a new value. Every third change notifies nobody.
macro_rules! change {
    ($tx:ident, $step:ident) => {
        $tx.send_if_modified(|value| {
            *value = $step;
            $step % 3 > 0
        })
    };
}

/// Random calls on a channel and its streams: what each returns, and whose tasks were woken so far,
/// as text.
macro_rules! script {
    ($name:ident, $channel:path, $streams:path, $stream:ident, $open:expr, $send:expr) => {
        fn $name(seed: u64) -> Vec<String> {
            use $channel as channel;
            use $streams as streams;
            let mut random = Random::new(seed);
            let (tx, rx) = channel::channel($open(&mut random));
            let (mut sender, mut said) = (Some(tx), vec![]);
            let mut tasks = vec![Task::new(streams::$stream::new(rx))];
            for step in 0..100u64 {
                let number = random.below(tasks.len().max(1));
                let answer = match (random.below(12), &sender) {
                    (0..=3, Some(tx)) => format!("{:?}", $send(tx, step)),
                    (4..=8, _) if !tasks.is_empty() => {
                        let polled = tasks[number].poll(&mut random);
                        format!("{polled:?} {:?}", tasks[number].0)
                    }
                    (9, Some(tx)) => {
                        tasks.push(Task::new(tx.subscribe().into()));
                        "subscribe".into()
                    }
                    (10, Some(tx)) if !tasks.is_empty() => {
                        tasks.remove(number);
                        format!("drop {}", tx.receiver_count())
                    }
                    (11, Some(_)) if random.below(6) == 0 => {
                        sender = None;
                        "drop".into()
                    }
                    _ => "nothing".into(),
                };
                said.push(format!("{answer} {:?}", woken(&tasks)));
            }
            said
        }
    };
}

fn capacity(random: &mut Random) -> usize {
    1 + random.below(4)
}

fn first(_: &mut Random) -> u64 {
    1_000
}

script!(
    broadcast_of_tokio,
    tokio::sync::broadcast,
    tokio_stream::wrappers,
    BroadcastStream,
    capacity,
    |tx: &tokio::sync::broadcast::Sender<u64>, step| tx.send(step)
);
script!(
    broadcast_of_this,
    yovanelum::broadcast,
    yovanelum_stream::wrappers,
    BroadcastStream,
    capacity,
    |tx: &yovanelum::broadcast::Sender<u64>, step| tx.send(step)
);
script!(
    watch_of_tokio,
    tokio::sync::watch,
    tokio_stream::wrappers,
    WatchStream,
    first,
    |tx: &tokio::sync::watch::Sender<u64>, step| change!(tx, step)
);
script!(
    watch_of_this,
    yovanelum::watch,
    yovanelum_stream::wrappers,
    WatchStream,
    first,
    |tx: &yovanelum::watch::Sender<u64>, step| change!(tx, step)
);

#[test]
fn of_a_broadcast() {
    for seed in 0..500 {
        let (this, tokio) = (broadcast_of_this(seed), broadcast_of_tokio(seed));
        assert_eq!(this, tokio, "seed {seed}");
    }
}

#[test]
fn of_a_watch() {
    for seed in 0..500 {
        assert_eq!(watch_of_this(seed), watch_of_tokio(seed), "seed {seed}");
    }
}

/// What a struct that holds a stream needs of it.
fn is_any<S: Send + Sync + Unpin + std::fmt::Debug + 'static>(_: &S) {}

#[test]
fn streams_of_both_may_be_sent_shared_and_moved() {
    use tokio_stream::wrappers as theirs;
    use yovanelum_stream::wrappers as ours;
    is_any(&theirs::BroadcastStream::new(
        tokio::sync::broadcast::channel::<u8>(1).1,
    ));
    is_any(&theirs::WatchStream::new(tokio::sync::watch::channel(1).1));
    is_any(&ours::BroadcastStream::new(
        yovanelum::broadcast::channel::<u8>(1).1,
    ));
    is_any(&ours::WatchStream::new(yovanelum::watch::channel(1).1));
    is_any(&ours::WatchStream::from_changes(
        yovanelum::watch::channel(1).1,
    ));
}
