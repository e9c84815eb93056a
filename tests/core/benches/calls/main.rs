//! How long calls of desks take, in nanoseconds, compared with the same calls recorded by a book: `cargo bench --bench calls -- CALLS RUNS`.
//!
//! `desks.rs` says what is timed. All of it is timed in turn, RUNS times, and the least of each is printed: a machine that does other things
//! is left alone for a short run now and then. As a test it makes few calls, once.

mod desks;
mod resident;
mod threads;

use desks::{in_book, on_desk, on_lock, on_seat, to_close};
use proved::rw_broadcast::BCall;
use proved::rw_desk::Kept;
use proved::rw_law::Entry;
use proved::rw_watch::WCall;
use proved::rw_world::{Chan, ChanCall, Spec};
use resident::Cost;
use support::{asked, asked_at};
use threads::{apart_on_desk, apart_on_seats, beside};

/// The most calls that are made on one channel. A journal has up to 1,048,576 entries.
const MOST_CALLS: u64 = 1_000_000;

/// What a broadcast is opened from.
const BROADCAST: Spec<u64> = Spec::Broadcast(1_024);

/// What a watch is opened from.
const WATCH: Spec<u64> = Spec::Watch(0);

/// Returns the call with this number on a channel: a send for an even number, and a receiver's try-recv or update for an odd one.
fn pair(spec: &Spec<u64>, i: u64) -> ChanCall<u64> {
    match (spec, i % 2) {
        (Spec::Broadcast(_), 0) => ChanCall::B(BCall::Send(0, i)),
        (Spec::Broadcast(_), _) => ChanCall::B(BCall::TryRecv(1)),
        (Spec::Watch(_), 0) => ChanCall::W(WCall::Send(0, i)),
        (Spec::Watch(_), _) => ChanCall::W(WCall::Update(1)),
    }
}

/// A workload: its name, how many calls it makes, and what they cost.
type Row<'a> = (&'a str, u64, Box<dyn Fn() -> Cost + 'a>);

/// Prints the time of a call, and the bytes of memory that it takes where they were measured.
fn report(name: &str, calls: u64, cost: &Cost) {
    println!(
        "{:>7.1}  {name}",
        cost.time.as_secs_f64() * 1e9 / calls as f64
    );
    if cost.bytes > 0 {
        println!(
            "         {} bytes of memory each",
            cost.bytes / calls.max(1)
        );
    }
}

fn main() {
    let calls = asked(1_000, 100_000).min(MOST_CALLS);
    let runs = asked_at(1, 1, 9);
    let (entry, receipt) = (size_of::<Entry<Chan<u64>>>(), size_of::<Kept<u64>>());
    assert_eq!((entry, receipt), (88, 64));
    println!("bytes of an entry: {entry}, of a receipt: {receipt}\nnanoseconds each:");
    let sends: Vec<_> = (0..calls).map(|i| pair(&BROADCAST, i)).collect();
    let writes: Vec<_> = (0..calls).map(|i| pair(&WATCH, i)).collect();
    let few = &sends[..sends.len() / 8];
    let rows: [Row; 11] = [
        (
            "broadcast pairs taken into a book",
            calls,
            Box::new(|| in_book(&BROADCAST, &sends)),
        ),
        (
            "broadcast pairs on a desk",
            calls,
            Box::new(|| on_desk(BROADCAST, &sends)),
        ),
        (
            "broadcast pairs on a desk, two threads on two channels",
            2 * calls,
            Box::new(|| Cost::of(apart_on_desk(&sends))),
        ),
        (
            "sends on a desk, and receives of all in another thread",
            calls,
            Box::new(|| Cost::of(beside(calls / 2))),
        ),
        (
            "broadcast pairs by a seat",
            calls,
            Box::new(|| on_seat(BROADCAST, &sends)),
        ),
        (
            "broadcast pairs by two seats, two threads on two channels",
            2 * calls,
            Box::new(|| Cost::of(apart_on_seats(&sends))),
        ),
        (
            "watch pairs taken into a book",
            calls,
            Box::new(|| in_book(&WATCH, &writes)),
        ),
        (
            "watch pairs on a desk",
            calls,
            Box::new(|| on_desk(WATCH, &writes)),
        ),
        (
            "watch pairs by a seat",
            calls,
            Box::new(|| on_seat(WATCH, &writes)),
        ),
        (
            "a lock alone, acquired and released",
            calls,
            Box::new(|| Cost::of(on_lock(calls))),
        ),
        (
            "entries of a closed desk of 8 channels",
            8 * few.len() as u64,
            Box::new(|| Cost::of(to_close(few))),
        ),
    ];
    let mut least: Vec<Cost> = rows.iter().map(|(.., cost)| cost()).collect();
    for _ in 1..runs {
        for (least, (.., cost)) in least.iter_mut().zip(&rows) {
            least.time = least.time.min(cost().time);
        }
    }
    for ((name, calls, _), cost) in rows.iter().zip(&least) {
        report(name, *calls, cost);
    }
}
