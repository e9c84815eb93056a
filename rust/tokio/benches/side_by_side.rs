//! Nanoseconds a receive of receivers on four threads, each of which receives all, recorded, with
//! no recorder set, and of tokio: `cargo bench --bench side_by_side -- CALLS REPEATS`.

#[path = "../../tests/support/receiving.rs"]
mod receiving;

use receiving::SENT;
use std::hint::black_box;
use yovanelum::Recorder;

macro_rules! case {
    ($name:ident, $module:path) => {
        fn $name(calls: usize, receivers: usize) -> f64 {
            use $module as channels;
            let (tx, rx) = channels::broadcast::channel(SENT);
            let mut all: Vec<_> = (1..receivers).map(|_| tx.subscribe()).collect();
            all.push(rx);
            let send = |value| {
                tx.send(value).unwrap();
            };
            let receive = |rx: &mut channels::broadcast::Receiver<_>| {
                black_box(rx.try_recv().unwrap());
            };
            let (received, took) = receiving::side_by_side(calls, all, send, receive);
            took.as_nanos() as f64 / received as f64
        }
    };
}

case!(of_tokio, tokio::sync);
case!(of_this, yovanelum);

fn recorded(calls: usize, receivers: usize) -> f64 {
    let recorder = Recorder::new();
    let _entered = recorder.enter();
    of_this(calls, receivers)
}

fn main() {
    let numbers = std::env::args().filter_map(|word| word.parse().ok());
    let numbers: Vec<usize> = numbers.collect();
    let calls = numbers.first().copied().unwrap_or(1_000_000).min(1_048_000);
    let repeats = numbers.get(1).copied().unwrap_or(9);
    println!(
        "{:>9} {:>11} {:>9} {:>9}",
        "receivers", "recorded ns", "unset ns", "tokio ns"
    );
    for receivers in [1, 8, 64] {
        let mut least = [f64::INFINITY; 3];
        for _ in 0..repeats {
            // In turn, so that all have the same share of what else the machine does.
            for (least, case) in least.iter_mut().zip([recorded, of_this, of_tokio]) {
                *least = least.min(case(calls, receivers));
            }
        }
        let [recorded, unset, tokio] = least;
        println!("{receivers:>9} {recorded:>11.1} {unset:>9.1} {tokio:>9.1}");
    }
}
