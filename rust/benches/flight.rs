//! A flight recorder that runs long, and its dumps: `cargo bench --bench flight -- CASE NUMBER..`
//!
//! - `long CALLS CHANNELS LAST`: sends, receives, receivers that lag and that come and go. It
//!   prints what a call takes in each tenth, and the memory.
//! - `dump CHANNELS LAST`: dumps of channels with `LAST` calls each, beside a service. It prints
//!   how long each takes, and how long the service's calls take meanwhile.
//! - `held TIMES`: what a call takes where nothing is held, over a backlog, and beside many
//!   receivers, in nanoseconds of processor time, the least of `TIMES` runs: without a recorder,
//!   recorded, and with flight recorders.

use std::fs::{self, read_to_string};
use std::hint::black_box;
use std::path::Path;
use std::time::{Duration, Instant};
use std::{env, process, thread};
use yovanelum::{Recorder, broadcast};

/// Returns the nanoseconds for which this thread has run.
fn spent() -> u64 {
    let spent = read_to_string("/proc/thread-self/schedstat").unwrap();
    spent.split(' ').next().unwrap().parse().unwrap()
}

/// Returns a line of what the system says of this process, in MB.
fn memory(key: &str) -> f64 {
    let status = read_to_string("/proc/self/status").unwrap();
    let line = status.lines().find_map(|line| line.strip_prefix(key));
    let kib: f64 = line
        .unwrap()
        .trim()
        .trim_end_matches(" kB")
        .parse()
        .unwrap();
    kib / 1024.0
}

/// Random numbers (xorshift).
struct Random(u64);

impl Random {
    fn below(&mut self, most: u64) -> u64 {
        self.0 ^= self.0 << 13;
        self.0 ^= self.0 >> 7;
        self.0 ^= self.0 << 17;
        self.0 % most
    }
}

type Channel = (broadcast::Sender<u64>, broadcast::Receiver<u64>);

/// Channels with a receiver that is late.
struct Service {
    channels: Vec<Channel>,
    late: Vec<broadcast::Receiver<u64>>,
    random: Random,
}

impl Service {
    fn new(channels: usize) -> Service {
        let channels: Vec<Channel> = (0..channels).map(|_| broadcast::channel(256)).collect();
        Service {
            late: channels.iter().map(|(tx, _)| tx.subscribe()).collect(),
            channels,
            random: Random(88_172_645_463_325_252),
        }
    }

    /// Makes some calls, and returns how many.
    fn step(&mut self) -> u64 {
        let at = self.random.below(self.channels.len() as u64) as usize;
        let (tx, rx) = &mut self.channels[at];
        tx.send(7).unwrap();
        let _ = black_box(rx.try_recv());
        let mut calls = 2;
        if self.random.below(4) == 0 {
            let _ = black_box(self.late[at].try_recv());
            calls += 1;
        }
        if self.random.below(16) == 0 {
            drop(black_box(tx.subscribe()));
            calls += 2;
        }
        if self.random.below(4096) == 0 {
            self.late[at] = tx.subscribe();
            calls += 2;
        }
        calls
    }
}

fn long(calls: u64, channels: usize, last: usize) {
    let recorder = Recorder::flight(last);
    let _entered = recorder.enter();
    let mut service = Service::new(channels);
    println!("{:>12} {:>8} {:>8}", "calls", "ns", "MB");
    let mut each = Vec::new();
    for tenth in 1..=10 {
        let (before, mut made) = (spent(), 0);
        while made < calls / 10 {
            made += service.step();
        }
        each.push((spent() - before) as f64 / made as f64);
        println!(
            "{:>12} {:>8.1} {:>8.1}",
            calls / 10 * tenth,
            each.last().unwrap(),
            memory("VmRSS:")
        );
    }
    println!(
        "the last tenth takes {:.3} times as long as the first",
        each[9] / each[0]
    );
}

/// Sends and receives until it is told to stop, and returns how long each pair took.
fn served(channel: &mut Channel, stop: impl Fn() -> bool) -> Vec<Duration> {
    let mut took = Vec::new();
    while !stop() {
        let began = Instant::now();
        channel.0.send(7).unwrap();
        black_box(channel.1.try_recv().unwrap());
        took.push(began.elapsed());
    }
    took.sort();
    took
}

fn print_served(what: &str, took: &[Duration]) {
    let at = |part: f64| took[((took.len() - 1) as f64 * part) as usize].as_nanos();
    println!(
        "{what}: {} sends with a receive, ns: median {}, 99 of 100 in {}, 9,999 of 10,000 in {}, longest {}",
        took.len(),
        at(0.5),
        at(0.99),
        at(0.9999),
        at(1.0)
    );
}

fn dump(channels: usize, last: usize, folder: &Path) {
    let recorder = Recorder::flight(last);
    recorder.dump_to(folder).keep(1);
    let _entered = recorder.enter();
    let mut channels: Vec<Channel> = (0..channels).map(|_| broadcast::channel(1024)).collect();
    for (tx, rx) in &mut channels {
        for value in 0..last as u64 / 2 {
            tx.send(value).unwrap();
            rx.try_recv().unwrap();
        }
    }
    let mut of_service = channels.pop().unwrap();
    let began = Instant::now();
    let before = served(&mut of_service, || {
        began.elapsed() > Duration::from_millis(300)
    });
    print_served("before", &before);
    for _ in 0..5 {
        let began = Instant::now();
        let dump = recorder.dump("a bench");
        let waiting = thread::spawn(move || dump.wait().map(|path| (path, began.elapsed())));
        let during = served(&mut of_service, || waiting.is_finished());
        let (path, took) = waiting.join().unwrap().unwrap();
        let size = fs::metadata(path).unwrap().len();
        println!(
            "a dump of {:.1} MB in {} ms",
            size as f64 / 1e6,
            took.as_millis()
        );
        print_served("meanwhile", &during);
    }
    println!("memory at most {:.0} MB", memory("VmHWM:"));
}

/// What a channel holds while its calls are measured.
#[derive(Clone, Copy)]
enum Held {
    Nothing,
    Backlog(u64),
    Receivers(usize),
}

impl Held {
    /// Makes a channel that holds this, the receiver that receives what is sent next, and others.
    fn channel(self) -> (Channel, Vec<broadcast::Receiver<u64>>) {
        let (capacity, backlog, receivers) = match self {
            Held::Nothing => (1_024, 0, 0),
            Held::Backlog(backlog) => (65_536, backlog, 0),
            Held::Receivers(receivers) => (1_024, 0, receivers),
        };
        let channel = broadcast::channel(capacity);
        let others = (0..receivers).map(|_| channel.0.subscribe()).collect();
        for value in 0..backlog {
            channel.0.send(value).unwrap();
        }
        (channel, others)
    }

    /// Returns the nanoseconds of a call: of a send with the receive that follows it, half.
    fn call(self) -> f64 {
        const PAIRS: u64 = 200_000;
        let ((tx, mut rx), others) = self.channel();
        let before = spent();
        for value in 0..PAIRS {
            tx.send(value).unwrap();
            black_box(rx.try_recv().unwrap());
        }
        let took = spent() - before;
        drop(others);
        took as f64 / (2 * PAIRS) as f64
    }
}

/// Who keeps the calls that are measured.
#[derive(Clone, Copy)]
enum Keeper {
    Nobody,
    Recorder,
    Flight(usize),
}

impl Keeper {
    fn call(self, held: Held) -> f64 {
        let recorder = match self {
            Keeper::Nobody => return held.call(),
            Keeper::Recorder => Recorder::new(),
            Keeper::Flight(last) => Recorder::flight(last),
        };
        let _entered = recorder.enter();
        held.call()
    }
}

fn held(times: u64) {
    let cases = [
        ("nothing", Held::Nothing),
        ("60000 unread", Held::Backlog(60_000)),
        ("5000 receivers", Held::Receivers(5_000)),
    ];
    let keepers = [
        ("none", Keeper::Nobody),
        ("recorded", Keeper::Recorder),
        ("flight 100", Keeper::Flight(100)),
        ("flight 1000", Keeper::Flight(1_000)),
        ("flight 10000", Keeper::Flight(10_000)),
    ];
    for (case, held) in cases {
        let mut least = [f64::INFINITY; 5];
        for _ in 0..times {
            for (least, (_, keeper)) in least.iter_mut().zip(keepers) {
                *least = least.min(keeper.call(held));
            }
        }
        for (ns, (keeper, _)) in least.into_iter().zip(keepers) {
            println!(
                "{case:>14} {keeper:>12} {ns:>8.1} ns, {:.2} of recorded",
                ns / least[1]
            );
        }
    }
}

fn main() {
    let words: Vec<String> = env::args()
        .skip(1)
        .filter(|word| word != "--bench")
        .collect();
    let numbers: Vec<u64> = words.iter().filter_map(|word| word.parse().ok()).collect();
    let number = |index: usize, unless: u64| numbers.get(index).copied().unwrap_or(unless);
    // Without words, as where all benches are run, it is quick.
    match words.first().map_or("dump", String::as_str) {
        "long" => long(
            number(0, 10_000_000),
            number(1, 1) as usize,
            number(2, 10_000) as usize,
        ),
        "held" => held(number(0, 5)),
        _ => {
            let folder = env::temp_dir().join(format!("yovanelum-bench-{}", process::id()));
            dump(number(0, 64) as usize, number(1, 10_000) as usize, &folder);
            let _ = fs::remove_dir_all(folder);
        }
    }
}
