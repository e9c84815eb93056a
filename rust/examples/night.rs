//! A night of a service with a flight recorder: chat rooms, each a broadcast, and a setting, which
//! is a watch. Connections come and go, each with a name of its own, and some read slowly. The
//! service counts what is lost by itself, and compares that with what the recorder says.
//!
//! `cargo run --release --example night -- CONNECTIONS FOLDER [MINUTES]`
//!
//! It serves this number of connections, and goes on with more until the minutes are over.

use std::collections::{BTreeMap, HashSet, VecDeque};
use std::path::{Path, PathBuf};
use std::sync::atomic::{AtomicU64, Ordering};
use std::sync::{Arc, Mutex};
use std::time::{Duration, Instant};
use std::{env, fs, io, thread};
use yovanelum::broadcast::error::TryRecvError;
use yovanelum::{Dumps, Recorder, block_on, broadcast, named, watch};

/// How many rooms there are, and how many messages each retains.
const ROOMS: usize = 8;
const RETAINED: usize = 64;

/// How many threads serve connections.
const THREADS: u64 = 4;

/// How many messages a connection sends.
const MESSAGES: u64 = 8;

/// One in this number of connections reads slowly.
const SLOW: u64 = 100;

/// How many losses are remembered, of which the dumps that are kept are some.
const REMEMBERED: usize = 65_536;

/// Why the last dump is written.
const OVER: &str = "the night is over";

/// A loss: who lost how many messages of which room.
type Loss = (String, u64, String);

/// What the service counts of itself.
#[derive(Default)]
pub struct Counted {
    sent: AtomicU64,
    received: AtomicU64,
    losses: Mutex<Losses>,
}

/// The losses of a night, as the recorder tells them and as the service counts them. What both have
/// said is forgotten but for the last ones, so a long night takes no more memory than a short one.
#[derive(Default)]
struct Losses {
    count: u64,
    // How many more times the recorder has told each than the service has counted it.
    told: BTreeMap<Loss, i64>,
    last: VecDeque<Loss>,
}

impl Losses {
    /// Notes that the recorder tells a loss.
    fn tell(&mut self, loss: Loss) {
        self.add(loss, 1);
    }

    /// Notes that the service counts a loss.
    fn count(&mut self, loss: Loss) {
        self.count += 1;
        if self.last.len() == REMEMBERED {
            self.last.pop_front();
        }
        self.last.push_back(loss.clone());
        self.add(loss, -1);
    }

    fn add(&mut self, loss: Loss, more: i64) {
        let told = self.told.get(&loss).copied().unwrap_or(0) + more;
        if told == 0 {
            self.told.remove(&loss);
        } else {
            self.told.insert(loss, told);
        }
    }
}

/// What a night was like.
#[derive(Debug)]
pub struct Night {
    /// How many connections were served.
    pub connections: u64,
    /// How many messages were sent.
    pub sent: u64,
    /// How many of them were received, by all together.
    pub received: u64,
    /// How many times a connection lagged.
    pub lags: u64,
    /// The dumps of the recorder.
    pub dumps: Dumps,
    /// The dump at its end.
    pub last: PathBuf,
    /// How long the connections took.
    pub took: Duration,
}

/// The channels of the service.
struct Service {
    rooms: Vec<broadcast::Sender<u64>>,
    setting: watch::Sender<u64>,
    counted: Arc<Counted>,
}

impl Service {
    fn new(recorder: &Recorder, counted: Arc<Counted>) -> Service {
        let rooms = (0..ROOMS)
            .map(|_| broadcast::Sender::new(RETAINED))
            .collect();
        let service = Service {
            rooms,
            setting: watch::Sender::new(0),
            counted,
        };
        for (number, room) in service.rooms.iter().enumerate() {
            recorder.name(room, &format!("room {number}"));
        }
        recorder.name(&service.setting, "setting");
        service
    }

    /// Serves a connection: it sends messages to its room, and gets those of others.
    async fn serve(&self, recorder: &Recorder, number: u64) {
        let room = number as usize % ROOMS;
        let mut messages = self.rooms[room].subscribe();
        recorder.name(&messages, &format!("inbox {number}"));
        let mut setting = self.setting.subscribe();
        // Who reads slowly has more to receive in the end than the room retains.
        let count = if number % SLOW == 0 {
            RETAINED as u64 + MESSAGES
        } else {
            MESSAGES
        };
        for message in 0..count {
            if self.rooms[room].send(message).is_ok() {
                self.counted.sent.fetch_add(1, Ordering::Relaxed);
            }
        }
        loop {
            match messages.try_recv() {
                Ok(_) => drop(self.counted.received.fetch_add(1, Ordering::Relaxed)),
                Err(TryRecvError::Lagged(lost)) => self.note(number, lost, room),
                Err(TryRecvError::Empty | TryRecvError::Closed) => break,
            }
        }
        setting.borrow_and_update();
    }

    fn note(&self, number: u64, lost: u64, room: usize) {
        let loss = (format!("inbox {number}"), lost, format!("room {room}"));
        self.counted.losses.lock().unwrap().count(loss);
    }
}

/// Serves connections on a few threads, as long as there is another one by its number. Returns how
/// many there were.
fn serve_all(service: &Service, recorder: &Recorder, is_next: impl Fn(u64) -> bool + Sync) -> u64 {
    let next = &AtomicU64::new(0);
    let served = &AtomicU64::new(0);
    let is_next = &is_next;
    thread::scope(|threads| {
        for _ in 0..THREADS {
            threads.spawn(move || {
                let _entered = recorder.enter();
                let numbers = std::iter::repeat_with(|| next.fetch_add(1, Ordering::Relaxed));
                for number in numbers.take_while(|number| is_next(*number)) {
                    let serves = service.serve(recorder, number);
                    block_on(named(&format!("conn {number}"), serves));
                    if number % 1_000 == 0 {
                        service.setting.send_replace(number);
                    }
                    served.fetch_add(1, Ordering::Relaxed);
                }
            });
        }
    });
    served.load(Ordering::Relaxed)
}

/// Panics unless each dump of this folder that a lag has called for is of one of these losses.
fn assert_are_losses(folder: &Path, losses: &Losses) -> io::Result<()> {
    let reasons: HashSet<_> = losses.last.iter().map(reason).collect();
    for file in fs::read_dir(folder)? {
        let path = file?.path();
        if path.extension().is_none_or(|it| it != "names") {
            continue;
        }
        let names = fs::read_to_string(&path)?;
        let (_, said) = names.split_once("\"reason\": \"").expect("a reason");
        let said = said.split('"').next().unwrap_or_default();
        assert!(said == OVER || reasons.contains(said), "{said}");
    }
    Ok(())
}

/// What a dump says of a loss.
fn reason((who, lost, room): &Loss) -> String {
    let values = if *lost == 1 { "value" } else { "values" };
    format!("`{who}` lost {lost} {values} of `{room}`")
}

/// Returns the dumps of the recorder, once there is an account of each that a lag has called for,
/// and of the last one. Panics if there are more.
fn all_dumps(recorder: &Recorder, lags: u64) -> Dumps {
    loop {
        let dumps = recorder.dumps();
        let count = dumps.written() + dumps.failed() + dumps.left_out();
        if count > lags {
            assert_eq!(count, lags + 1);
            return dumps;
        }
        thread::yield_now();
    }
}

/// Serves at least this number of connections, and for at least this time, and writes dumps into
/// this folder when one lags. Panics where the recorder says something else than the service has
/// counted.
pub fn night(least: u64, lasts: Duration, folder: &Path) -> io::Result<Night> {
    let recorder = Recorder::flight(1_000);
    let dumps = recorder.dump_to(folder).when_lag(1).keep(16);
    dumps.at_most_every(Duration::from_millis(100));
    let counted = Arc::new(Counted::default());
    let noted = counted.clone();
    recorder.on_lag(move |lag| {
        let loss = (
            lag.receiver().to_string(),
            lag.lost(),
            lag.channel().to_string(),
        );
        noted.losses.lock().unwrap().tell(loss);
    });
    let entered = recorder.enter();
    let service = Service::new(&recorder, counted);
    drop(entered);
    let began = Instant::now();
    let is_next = |number| number < least || began.elapsed() < lasts;
    let connections = serve_all(&service, &recorder, is_next);
    let took = began.elapsed();
    let last = recorder.dump(OVER).wait()?;
    let losses = service.counted.losses.lock().unwrap();
    assert_eq!(losses.told, BTreeMap::new());
    assert_are_losses(folder, &losses)?;
    let count = |count: &AtomicU64| count.load(Ordering::Relaxed);
    Ok(Night {
        connections,
        sent: count(&service.counted.sent),
        received: count(&service.counted.received),
        lags: losses.count,
        dumps: all_dumps(&recorder, losses.count),
        last,
        took,
    })
}

fn main() -> io::Result<()> {
    let words: Vec<String> = env::args().skip(1).collect();
    let (connections, folder, minutes) = match &words[..] {
        [connections, folder] => (connections, folder, "0"),
        [connections, folder, minutes] => (connections, folder, minutes.as_str()),
        _ => {
            return Err(io::Error::other(
                "usage: night CONNECTIONS FOLDER [MINUTES]",
            ));
        }
    };
    let least = connections.parse().map_err(io::Error::other)?;
    let minutes: u64 = minutes.parse().map_err(io::Error::other)?;
    let lasts = Duration::from_secs(60 * minutes);
    println!("{:#?}", night(least, lasts, Path::new(folder))?);
    Ok(())
}
