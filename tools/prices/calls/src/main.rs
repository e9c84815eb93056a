//! Makes calls of one kind on one side: `prices CASE SIDE COUNT`, to be counted by callgrind.
//! `prices times COUNT REPEATS` prints how long a call of each case takes on each side, and
//! `prices bytes` how much memory channels and receivers have. `prices stack` makes calls with large
//! values, `prices threads` calls on several threads, and `prices pages` a million calls of one
//! recorder after another.

mod cases;
mod large;
mod memory;
mod threads;

use cases::{CASES, Side};
use std::time::Instant;

const SIDES: [Side; 5] = [
    Side::Tokio,
    Side::Unrecorded,
    Side::Recorded,
    Side::Flight(1_000),
    Side::Flight(10_000),
];

fn side_called(name: &str) -> Side {
    let found = SIDES.into_iter().find(|side| side.name() == name);
    found.unwrap_or_else(|| panic!("no side is called {name}"))
}

/// The least of several times, in turn on all sides, so that all have the same share of what else
/// the machine does.
fn print_times(count: u64, repeats: u32) {
    for (case, run) in CASES {
        let mut least = [f64::INFINITY; SIDES.len()];
        for _ in 0..repeats {
            for (least, side) in least.iter_mut().zip(SIDES) {
                let start = Instant::now();
                run(side, count);
                *least = least.min(start.elapsed().as_nanos() as f64 / count as f64);
            }
        }
        for (side, least) in SIDES.iter().zip(least) {
            println!("{case} {} {least:.1}", side.name());
        }
    }
}

fn main() {
    let words: Vec<String> = std::env::args().skip(1).collect();
    let words: Vec<&str> = words.iter().map(String::as_str).collect();
    let number = |word: &str| word.parse().expect("a number");
    match words[..] {
        ["stack", what, side, bytes] => {
            large::with_stack(what, side_called(side), number(bytes) as usize)
        }
        ["bytes"] => memory::print_bytes(&SIDES[..4]),
        ["pages"] => memory::print_pages(),
        ["threads", count, repeats] => {
            threads::print_threads(&SIDES, number(count), number(repeats) as u32)
        }
        ["times", count, repeats] => print_times(number(count), number(repeats) as u32),
        [case, side, count] => {
            let found = CASES.into_iter().find(|(name, _)| *name == case);
            let (_, run) = found.unwrap_or_else(|| panic!("no case is called {case}"));
            run(side_called(side), number(count));
        }
        _ => panic!(
            "prices CASE SIDE COUNT | times COUNT REPEATS | threads COUNT REPEATS | stack WHAT SIDE BYTES | bytes | pages"
        ),
    }
}
