//! Nanoseconds a call, recorded and replayed in turn, in one run:
//! `cargo bench --bench replayed -- CALLS REPEATS`.

use std::hint::black_box;
use std::path::Path;
use std::time::{Duration, Instant};
use std::{env, fs, process, thread};
use yovanelum::{Recorder, broadcast, watch};

type Case = (&'static str, fn(u64) -> Duration);

/// One thread sends and receives.
fn pairs(calls: u64) -> Duration {
    let (tx, mut rx) = broadcast::channel(16);
    let start = Instant::now();
    for value in 0..calls / 2 {
        black_box(tx.send(black_box(value)).unwrap());
        black_box(rx.try_recv().unwrap());
    }
    start.elapsed()
}

/// One thread writes and reads.
fn watch_pairs(calls: u64) -> Duration {
    let (tx, mut rx) = watch::channel(0);
    let start = Instant::now();
    for value in 0..calls / 2 {
        tx.send(black_box(value)).unwrap();
        black_box(*rx.borrow_and_update());
    }
    start.elapsed()
}

/// Two threads answer each other.
fn ping(calls: u64) -> Duration {
    let rounds = calls / 4;
    let (tx, mut there) = broadcast::channel(16);
    let (back, mut rx) = broadcast::channel(16);
    let other = thread::Builder::new().name("other".into());
    let other = other.spawn(move || {
        for _ in 0..rounds {
            back.send(there.blocking_recv().unwrap()).unwrap();
        }
    });
    let start = Instant::now();
    for value in 0..rounds {
        tx.send(value).unwrap();
        assert_eq!(rx.blocking_recv(), Ok(value));
    }
    let took = start.elapsed();
    other.unwrap().join().unwrap();
    took
}

fn run(recorder: &Recorder, case: fn(u64) -> Duration, calls: u64) -> f64 {
    let _entered = recorder.enter();
    case(calls).as_nanos() as f64 / calls as f64
}

/// Returns the nanoseconds a call of a run that is recorded, and of one that replays it.
fn both(journal: &Path, case: fn(u64) -> Duration, calls: u64) -> (f64, f64) {
    let recorder = Recorder::new();
    let recorded = run(&recorder, case, calls);
    recorder.save(journal).unwrap();
    let recorder = Recorder::replay(journal).unwrap();
    let replayed = run(&recorder, case, calls);
    let how = recorder.replayed().unwrap();
    assert!(how.is_in_order(), "{how}");
    (recorded, replayed)
}

fn main() {
    let numbers: Vec<u64> = env::args().filter_map(|word| word.parse().ok()).collect();
    let calls = numbers.first().copied().unwrap_or(200_000);
    let repeats = numbers.get(1).copied().unwrap_or(5);
    let journal = env::temp_dir().join(format!("yovanelum-bench-{}.journal", process::id()));
    let cases: [(Case, u64); 3] = [
        (("broadcast-16-pairs", pairs), calls),
        (("watch-pairs", watch_pairs), calls),
        (("2t-broadcast-16-ping", ping), calls / 10),
    ];
    println!(
        "{:22} {:>9} {:>11} {:>11}",
        "case", "calls", "recorded ns", "replayed ns"
    );
    for ((name, case), calls) in cases {
        let runs: Vec<_> = (0..repeats).map(|_| both(&journal, case, calls)).collect();
        let least = |of: fn(&(f64, f64)) -> f64| runs.iter().map(of).fold(f64::INFINITY, f64::min);
        println!(
            "{name:22} {calls:>9} {:>11.1} {:>11.1}",
            least(|run| run.0),
            least(|run| run.1)
        );
    }
    let _ = fs::remove_file(&journal);
    let _ = fs::remove_file(journal.with_extension("names"));
}
