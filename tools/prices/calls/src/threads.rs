//! Senders and receivers on threads of their own: `prices threads COUNT REPEATS`.

use crate::cases::Side;
use std::hint::black_box;
use std::thread;
use yovanelum::block_on;

/// How many senders and how many receivers there are.
const CASES: [(&str, usize, usize); 3] = [("1-1", 1, 1), ("1-8", 1, 8), ("8-1", 8, 1)];

/// How many values a channel retains. A receiver that is slower loses some.
const RETAINED: usize = 1024;

macro_rules! threads_of {
    ($name:ident, $module:path) => {
        /// Sends `count` values in all, which the receivers receive until the channel is closed.
        fn $name(senders: usize, receivers: usize, count: u64) {
            use $module::{broadcast, broadcast::error::RecvError};
            let (tx, rx) = broadcast::channel(RETAINED);
            let mut all = vec![rx];
            all.resize_with(receivers, || tx.subscribe());
            thread::scope(|scope| {
                for mut rx in all {
                    scope.spawn(move || {
                        while !matches!(black_box(block_on(rx.recv())), Err(RecvError::Closed)) {}
                    });
                }
                for _ in 0..senders {
                    let tx = tx.clone();
                    scope.spawn(move || {
                        for value in 0..count / senders as u64 {
                            black_box(tx.send(value).unwrap());
                        }
                    });
                }
                drop(tx);
            });
        }
    };
}

/// On how many threads looks are made at once.
const LOOKERS: [(&str, usize); 3] = [("looks-1", 1), ("looks-2", 2), ("looks-4", 4)];

macro_rules! looks_of {
    ($name:ident, $module:path) => {
        /// Makes `count` pairs of looks in all: whether the value has changed, and what it is. Each
        /// thread has a receiver.
        fn $name(threads: usize, count: u64) {
            use $module as channels;
            let (_tx, rx) = channels::watch::channel(7);
            thread::scope(|scope| {
                for _ in 0..threads {
                    let rx = rx.clone();
                    scope.spawn(move || {
                        for _ in 0..count / threads as u64 {
                            let has_changed = black_box(&rx).has_changed();
                            black_box((has_changed.is_ok(), *black_box(&rx).borrow()));
                        }
                    });
                }
            });
        }
    };
}

threads_of!(of_tokio, tokio::sync);
threads_of!(of_crate, yovanelum);
looks_of!(looks_of_tokio, tokio::sync);
looks_of!(looks_of_crate, yovanelum);

/// The nanoseconds of processors that this process has taken. They are counted by hundredths of a
/// second.
fn taken() -> f64 {
    let line = std::fs::read_to_string("/proc/self/stat").expect("Linux");
    // The name of the program, which may have spaces, is in parentheses.
    let (_, behind) = line.rsplit_once(')').expect("a name");
    let fields: Vec<&str> = behind.split_whitespace().collect();
    let ticks = |field: usize| fields[field].parse::<f64>().expect("a number");
    (ticks(11) + ticks(12)) * 1e7
}

/// Prints the times of processors of a case for each of `count` calls, of several runs in turn. They
/// are added up, since one run takes few hundredths of a second.
fn print_case(case: &str, sides: &[Side], (count, repeats): (u64, u32), run: impl Fn(Side)) {
    let mut sums = vec![0.0; sides.len()];
    for _ in 0..repeats {
        for (sum, side) in sums.iter_mut().zip(sides) {
            let before = taken();
            run(*side);
            *sum += taken() - before;
        }
    }
    for (side, sum) in sides.iter().zip(sums) {
        let made = count * u64::from(repeats);
        println!("{case} {} {:.0}", side.name(), sum / made as f64);
    }
}

/// The times of processors for each value that is sent, and for each pair of looks.
pub fn print_threads(sides: &[Side], count: u64, repeats: u32) {
    for (case, senders, receivers) in CASES {
        print_case(case, sides, (count, repeats), |side| {
            side.run(
                || of_tokio(senders, receivers, count),
                || of_crate(senders, receivers, count),
            )
        });
    }
    for (case, threads) in LOOKERS {
        print_case(case, sides, (count, repeats), |side| {
            side.run(
                || looks_of_tokio(threads, count),
                || looks_of_crate(threads, count),
            )
        });
    }
}
