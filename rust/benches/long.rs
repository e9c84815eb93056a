//! What a long run costs: nanoseconds of processor time and resident memory after each tenth.
//! `cargo bench --bench long -- CASE TIMES [unset]`
//!
//! With `unset` no recorder is set. The cases:
//!
//! - `keep` subscribes and drops, and each 60,000th receiver is kept. Then a send and a receive,
//!   here and on a new channel.
//! - `tasks`: named tasks that send once.
//! - `channels`: channels of named tasks.
//! - `texts`: a send and a receive of a value that has a text.
//! - `names`: receivers that are named and dropped.

use std::fs::read_to_string;
use std::hint::black_box;
use yovanelum::{Recorder, block_on, broadcast, named};

/// Each how many-th receiver is kept.
const KEPT: u64 = 60_000;

/// How many sends and receives are timed at once.
const PAIRS: u64 = 100_000;

/// Returns the nanoseconds for which this thread has run.
fn spent() -> u64 {
    let spent = read_to_string("/proc/thread-self/schedstat").unwrap();
    spent.split(' ').next().unwrap().parse().unwrap()
}

/// Returns the memory that this process has now, in MB.
fn resident() -> f64 {
    let status = read_to_string("/proc/self/status").unwrap();
    let mut lines = status.lines();
    let line = lines.find_map(|line| line.strip_prefix("VmRSS:")).unwrap();
    let kib: f64 = line.trim().trim_end_matches(" kB").parse().unwrap();
    kib / 1024.0
}

/// Does a thing so often, and prints what it took in each tenth.
fn tenths(times: u64, mut thing: impl FnMut(u64)) {
    println!("{:>10} {:>8} {:>8}", "times", "ns", "MB");
    for tenth in 0..10 {
        let (first, last) = (times * tenth / 10, times * (tenth + 1) / 10);
        let before = spent();
        (first..last).for_each(&mut thing);
        let each = (spent() - before) as f64 / (last - first) as f64;
        println!("{last:>10} {each:>8.1} {:>8.1}", resident());
    }
}

type Channel = (broadcast::Sender<u64>, broadcast::Receiver<u64>);

/// Nanoseconds a send and a receive.
fn pair((tx, rx): &mut Channel) -> f64 {
    let before = spent();
    for value in 0..PAIRS {
        tx.send(black_box(value)).unwrap();
        black_box(rx.try_recv().unwrap());
    }
    (spent() - before) as f64 / PAIRS as f64
}

/// Prints how long a send and a receive take on this channel, and on a new one with as many
/// receivers: the least of ten, in turn.
fn compare(channel: &mut Channel, what: &str) {
    let (tx, rx) = broadcast::channel(1024);
    let mut new = (tx, rx);
    let more = channel.0.receiver_count() - 1;
    let _more: Vec<_> = (0..more).map(|_| new.0.subscribe()).collect();
    let mut least = [f64::INFINITY; 2];
    for _ in 0..10 {
        least[0] = least[0].min(pair(channel));
        least[1] = least[1].min(pair(&mut new));
    }
    let [here, there] = least;
    println!(
        "with {more} receivers more: {here:.1} ns a send and a receive, on a new channel {there:.1}{what}"
    );
}

fn keep(times: u64) {
    let mut channel = broadcast::channel(1024);
    let mut kept = Vec::new();
    tenths(times, |time| {
        let rx = channel.0.subscribe();
        if time % KEPT == KEPT - 1 {
            kept.push(rx);
        }
    });
    compare(&mut channel, "");
    let _off = Recorder::off().enter();
    compare(&mut channel, ", which nobody records");
    drop(kept);
    compare(&mut channel, ", which nobody records");
}

fn tasks(times: u64) {
    let (tx, _rx) = broadcast::channel(16);
    tenths(times, |time| {
        let task = named(&format!("connection {time}"), async { tx.send(time) });
        block_on(task).unwrap();
    });
}

fn channels(times: u64) {
    tenths(times, |time| {
        let task = named(&format!("request {time}"), async {
            let (tx, mut rx) = broadcast::channel(16);
            tx.send(time).unwrap();
            black_box(rx.try_recv().unwrap());
        });
        block_on(task);
    });
}

fn texts(times: u64) {
    let (tx, mut rx) = broadcast::channel(16);
    if let Some(recorder) = Recorder::current() {
        recorder.show(&tx, |time| {
            format!("the value {time}, a text of some length")
        });
    }
    tenths(times, |time| {
        tx.send(time).unwrap();
        black_box(rx.try_recv().unwrap());
    });
}

fn names(times: u64) {
    let (tx, _rx) = broadcast::channel::<u64>(16);
    let recorder = Recorder::current().unwrap_or_else(Recorder::off);
    tenths(times, |time| {
        recorder.name(&tx.subscribe(), &format!("connection {time}"));
    });
}

fn main() {
    let words: Vec<String> = std::env::args().skip(1).collect();
    let is_case = |word: &&String| word.parse::<u64>().is_err() && *word != "--bench";
    let mut cases = words.iter().filter(is_case).filter(|word| *word != "unset");
    // Without words, as where all benches are run, it is quick.
    let case = cases.next().map_or("keep", String::as_str);
    let mut numbers = words.iter().filter_map(|word| word.parse().ok());
    let times = numbers.next().unwrap_or(1_000_000);
    let recorder = Recorder::new();
    let is_set = words.iter().all(|word| word != "unset");
    let _entered = is_set.then(|| recorder.enter());
    match case {
        "keep" => keep(times),
        "tasks" => tasks(times),
        "channels" => channels(times),
        "texts" => texts(times),
        "names" => names(times),
        _ => panic!("there is no case {case}"),
    }
}
