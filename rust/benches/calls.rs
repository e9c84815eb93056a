//! Nanoseconds a call, recorded, with a flight recorder and with no recorder set, the cases those
//! of tokio's own bench: `cargo bench -- CALLS REPEATS`.

#[path = "../tests/support/receiving.rs"]
mod receiving;

use receiving::SENT;
use std::hint::black_box;
use std::thread;
use std::time::{Duration, Instant};
use yovanelum::{ChannelSnapshot, Recorder, broadcast, watch};

type Timed = (u64, Duration);
type Case = (&'static str, fn(u64) -> Timed);

fn timed(calls: u64, run: impl FnOnce()) -> Timed {
    let start = Instant::now();
    run();
    (calls, start.elapsed())
}

fn pairs(calls: u64, receivers: usize) -> Timed {
    let (tx, rx) = broadcast::channel(1024);
    let mut all = vec![rx];
    all.resize_with(receivers, || tx.subscribe());
    let round = receivers as u64 + 1;
    let rounds = calls / round;
    timed(rounds * round, || {
        for value in 0..rounds {
            black_box(tx.send(black_box(value)).unwrap());
            for rx in &mut all {
                black_box(rx.try_recv().unwrap());
            }
        }
    })
}

fn overrun(calls: u64) -> Timed {
    let (tx, _rx) = broadcast::channel(2);
    timed(calls, || {
        for value in 0..calls {
            black_box(tx.send(black_box(value)).unwrap());
        }
    })
}

fn empty(calls: u64) -> Timed {
    let (_tx, mut rx) = broadcast::channel::<u64>(1024);
    timed(calls, || {
        for _ in 0..calls {
            assert!(black_box(&mut rx).try_recv().is_err());
        }
    })
}

fn subscribe_and_drop(calls: u64) -> Timed {
    let (tx, _rx) = broadcast::channel::<u64>(1024);
    // A journal names no more handles of a channel.
    let rounds = (calls / 2).min(65_000);
    timed(rounds * 2, || {
        for _ in 0..rounds {
            drop(black_box(tx.subscribe()));
        }
    })
}

fn watch_pairs(calls: u64) -> Timed {
    let (tx, mut rx) = watch::channel(0);
    timed(calls / 2 * 2, || {
        for value in 0..calls / 2 {
            tx.send(black_box(value)).unwrap();
            black_box(*rx.borrow_and_update());
        }
    })
}

fn two_threads(calls: u64) -> Timed {
    let each = calls / 4;
    let made: Vec<_> = (0..2).map(|_| broadcast::channel(1024)).collect();
    timed(each * 4, || {
        thread::scope(|scope| {
            for (tx, mut rx) in made {
                scope.spawn(move || {
                    for value in 0..each {
                        black_box(tx.send(black_box(value)).unwrap());
                        black_box(rx.try_recv().unwrap());
                    }
                });
            }
        })
    })
}

fn ping(calls: u64) -> Timed {
    let rounds = calls / 80;
    let (tx, mut there) = broadcast::channel(16);
    let (back, mut rx) = broadcast::channel(16);
    let answering = thread::spawn(move || {
        for _ in 0..rounds {
            back.send(there.blocking_recv().unwrap()).unwrap();
        }
    });
    let timed = timed(rounds * 4, || {
        for value in 0..rounds {
            tx.send(value).unwrap();
            assert_eq!(rx.blocking_recv(), Ok(value));
        }
    });
    answering.join().unwrap();
    timed
}

fn side_by_side(calls: u64, receivers: usize) -> Timed {
    let (tx, rx) = broadcast::channel(SENT);
    let mut all: Vec<_> = (1..receivers).map(|_| tx.subscribe()).collect();
    all.push(rx);
    let send = |value| {
        tx.send(value).unwrap();
    };
    let receive = |rx: &mut broadcast::Receiver<_>| {
        black_box(rx.try_recv().unwrap());
    };
    let (received, took) = receiving::side_by_side(calls as usize, all, send, receive);
    (received as u64, took)
}

/// Lags with a closure that is called: two sends and two receives each.
fn lags_told(calls: u64) -> Timed {
    if let Some(recorder) = Recorder::current() {
        recorder.on_lag(|lag| {
            black_box(lag.lost_in_all());
        });
    }
    let (tx, mut rx) = broadcast::channel(1);
    let rounds = calls / 4;
    timed(rounds * 4, || {
        for value in 0..rounds {
            tx.send(value).unwrap();
            tx.send(value).unwrap();
            assert!(rx.try_recv().is_err());
            black_box(rx.try_recv().unwrap());
        }
    })
}

/// Snapshots of a channel with eight receivers, none of which is a call.
fn snapshots(calls: u64) -> Timed {
    let (tx, _rx) = broadcast::channel(1024);
    let _all: Vec<_> = (1..8).map(|_| tx.subscribe()).collect();
    tx.send(0_u64).unwrap();
    let times = calls / 100;
    timed(times, || {
        for _ in 0..times {
            black_box(ChannelSnapshot::of(&tx));
        }
    })
}

fn resident() -> u64 {
    let status = std::fs::read_to_string("/proc/self/status").unwrap();
    let line = status
        .lines()
        .find_map(|line| line.strip_prefix("VmRSS:"))
        .unwrap();
    line.trim().trim_end_matches(" kB").parse::<u64>().unwrap() * 1024
}

/// A run of a case under a recorder of its own: nanoseconds a call and for saving it, and the bytes
/// that a call leaves in memory.
struct Recorded {
    calls: u64,
    call: f64,
    save: f64,
    bytes: u64,
}

#[inline(never)]
fn recorded(calls: u64, case: fn(u64) -> Timed) -> Recorded {
    let recorder = Recorder::new();
    let entered = recorder.enter();
    let before = resident();
    let (calls, took) = case(calls);
    let bytes = resident().saturating_sub(before) / calls;
    drop(entered);
    let start = Instant::now();
    black_box(recorder.journal().unwrap().len());
    let save = start.elapsed();
    let each = |time: Duration| time.as_nanos() as f64 / calls as f64;
    Recorded {
        calls,
        call: each(took),
        save: each(save),
        bytes,
    }
}

/// Nanoseconds a call of a run of a case whose channels each keep their last calls.
#[inline(never)]
fn flight(calls: u64, case: fn(u64) -> Timed) -> f64 {
    let recorder = Recorder::flight(10_000);
    let _entered = recorder.enter();
    let (calls, took) = case(calls);
    took.as_nanos() as f64 / calls as f64
}

/// Nanoseconds a call of a run of a case whose channels belong to no recorder.
#[inline(never)]
fn unset(calls: u64, case: fn(u64) -> Timed) -> f64 {
    let (calls, took) = case(calls);
    took.as_nanos() as f64 / calls as f64
}

fn main() {
    let numbers: Vec<u64> = std::env::args()
        .filter_map(|word| word.parse().ok())
        .collect();
    let calls = numbers.first().copied().unwrap_or(1_000_000).min(1_048_000);
    let repeats = numbers.get(1).copied().unwrap_or(5);
    let cases: [Case; 13] = [
        ("broadcast-1024-pairs-1rx", |calls| pairs(calls, 1)),
        ("broadcast-1024-pairs-8rx", |calls| pairs(calls, 8)),
        ("broadcast-2-overrun", overrun),
        ("broadcast-1024-empty", empty),
        ("broadcast-1024-subscribe-drop", subscribe_and_drop),
        ("watch-pairs-1rx", watch_pairs),
        ("2t-broadcast-16-ping", ping),
        ("2t-own-channels-pairs", two_threads),
        ("4t-broadcast-1rx", |calls| side_by_side(calls, 1)),
        ("4t-broadcast-8rx", |calls| side_by_side(calls, 8)),
        ("4t-broadcast-64rx", |calls| side_by_side(calls, 64)),
        ("broadcast-1-lags-told", lags_told),
        ("snapshot-8rx", snapshots),
    ];
    println!(
        "{:30} {:>9} {:>9} {:>10} {:>9} {:>9} {:>13} {:>9}",
        "case", "calls", "least ns", "median ns", "flight ns", "unset ns", "save ns/call", "bytes"
    );
    for (name, case) in cases {
        // In turn, so that all have the same share of what else the machine does.
        let (mut runs, mut others) = (Vec::new(), [f64::INFINITY; 2]);
        for _ in 0..repeats {
            runs.push(recorded(calls, case));
            let [flown, unrecorded] = [flight, unset].map(|run| run(calls, case));
            others = [others[0].min(flown), others[1].min(unrecorded)];
        }
        let [flight, unset] = others;
        let bytes = runs[0].bytes;
        runs.sort_by(|a, b| a.call.total_cmp(&b.call));
        let (least, median) = (&runs[0], &runs[runs.len() / 2]);
        println!(
            "{name:30} {:>9} {:>9.1} {:>10.1} {flight:>9.1} {unset:>9.1} {:>13.1} {bytes:>9}",
            least.calls, least.call, median.call, least.save
        );
    }
}
