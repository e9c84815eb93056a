//! How much memory channels and receivers have, by what the allocator was asked for.

use crate::cases::{CASES, Side};
use std::alloc::{GlobalAlloc, Layout, System};
use std::sync::atomic::{AtomicUsize, Ordering};

struct Counting;

static BYTES: AtomicUsize = AtomicUsize::new(0);

// SAFETY: the system's allocator does all of it.
unsafe impl GlobalAlloc for Counting {
    unsafe fn alloc(&self, layout: Layout) -> *mut u8 {
        BYTES.fetch_add(layout.size(), Ordering::Relaxed);
        // SAFETY: as the caller says.
        unsafe { System.alloc(layout) }
    }

    unsafe fn dealloc(&self, block: *mut u8, layout: Layout) {
        BYTES.fetch_sub(layout.size(), Ordering::Relaxed);
        // SAFETY: as the caller says.
        unsafe { System.dealloc(block, layout) }
    }
}

#[global_allocator]
static ALLOCATOR: Counting = Counting;

/// A recorder has 64 channels at most.
const CHANNELS: usize = 60;
const RECEIVERS: usize = 50_000;

/// Bytes of each of `count` things that are kept, with the list of them left out.
fn bytes<R>(count: usize, mut make: impl FnMut() -> R) -> usize {
    let mut kept = Vec::with_capacity(count);
    // What a thread or the process allocates once is allocated here.
    drop(make());
    let before = BYTES.load(Ordering::Relaxed);
    kept.resize_with(count, &mut make);
    (BYTES.load(Ordering::Relaxed) - before) / count
}

macro_rules! bytes_of {
    ($name:ident, $module:path) => {
        /// Of a broadcast of 16 with its two handles, of a watch, or of a receiver of one.
        fn $name(what: &str) -> usize {
            use $module::{broadcast, watch};
            let (tx, _rx) = broadcast::channel::<u64>(16);
            let (_tx, rx) = watch::channel(0_u64);
            let handle = size_of::<broadcast::Receiver<u64>>();
            let look = size_of::<watch::Receiver<u64>>();
            match what {
                "broadcast" => bytes(CHANNELS, || broadcast::channel::<u64>(16)),
                "watch" => bytes(CHANNELS, || watch::channel(0_u64)),
                "receiver" => handle + bytes(RECEIVERS, || tx.subscribe()),
                _ => look + bytes(RECEIVERS, || rx.clone()),
            }
        }
    };
}

bytes_of!(of_tokio, tokio::sync);
bytes_of!(of_crate, yovanelum);

/// Each is of a recorder of its own, since a channel that leaves a run frees its memory.
pub fn print_bytes(sides: &[Side]) {
    for side in sides {
        for what in ["broadcast", "watch", "receiver", "watch-receiver"] {
            let bytes = side.run(|| of_tokio(what), || of_crate(what));
            println!("{what} {} {bytes}", side.name());
        }
    }
}

/// How many faults of pages this process has had that needed no disk.
fn faults() -> u64 {
    let line = std::fs::read_to_string("/proc/self/stat").expect("Linux");
    let (_, behind) = line.rsplit_once(')').expect("a name");
    let field = behind.split_whitespace().nth(7);
    field.expect("ten fields").parse().expect("a number")
}

/// How many faults each of three recorders has, one after the other, whose channel makes a million
/// calls.
pub fn print_pages() {
    let (_, pairs) = CASES[0];
    // A process with a flight recorder gives memory back, so those come last.
    for side in [Side::Recorded, Side::Flight(1_000), Side::Flight(10_000)] {
        for turn in 1..=3 {
            let before = faults();
            pairs(side, 500_000);
            println!("{turn} {} {}", side.name(), faults() - before);
        }
    }
}
