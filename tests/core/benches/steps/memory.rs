//! How much memory handles, retained values and channels take: by how many bytes the process grows for many of them.

use proved::Global;
use proved::rw_broadcast::Broadcast;
use proved::rw_handles::{MOST_HANDLES, Slot, Table};
use proved::rw_law::Reversible;
use proved::rw_ring::{MOST_CAPACITY, Ring};
use proved::rw_world::{Chan, MOST_CHANNELS, Spec, World, open};
use std::fs;

/// How many tables and rings are made.
const MADE: u64 = 64;

/// How many worlds are made.
const WORLDS: u64 = 1_024;

/// The bytes of a page, in which the system counts a process's memory.
const PAGE: u64 = 4_096;

/// Returns how many bytes the process has.
fn process_bytes() -> u64 {
    let counts = fs::read_to_string("/proc/self/statm").unwrap();
    let pages = counts.split(' ').next().unwrap();
    pages.parse::<u64>().unwrap() * PAGE
}

/// Makes something of `parts` parts, and measures how many bytes each of them takes.
fn bytes_each<T>(parts: u64, make: impl FnOnce() -> T) -> u64 {
    let before = process_bytes();
    let _made = make();
    process_bytes().saturating_sub(before) / parts
}

/// Makes tables with room for as many handles as a channel makes.
fn tables() -> Vec<Table<u64>> {
    (0..MADE).map(|_| ready_table()).collect()
}

/// Makes one of them.
fn ready_table() -> Table<u64> {
    let mut table: Table<u64> = Table::new(Global).unwrap();
    table.ready(MOST_HANDLES as u64).unwrap();
    table
}

/// Measures how many bytes a handle takes, in tables with room for as many as a channel makes.
fn handle_bytes() -> u64 {
    bytes_each(MADE * MOST_HANDLES as u64, tables)
}

/// Opens broadcasts that are ready for as many calls as make handles.
fn broadcasts() -> Vec<Broadcast<u64>> {
    (0..MADE).map(|_| ready_broadcast()).collect()
}

/// Opens one of them. Two handles come with the channel.
fn ready_broadcast() -> Broadcast<u64> {
    let mut channel = Broadcast::open(Global, 1).unwrap();
    channel.ready(MOST_HANDLES as u64 - 2).unwrap();
    channel
}

/// Measures how many bytes a handle takes, in broadcasts that are ready for as many calls as make handles.
fn broadcast_handle_bytes() -> u64 {
    bytes_each(MADE * MOST_HANDLES as u64, broadcasts)
}

/// Makes rings of the greatest capacity.
fn rings() -> Vec<Ring<u64>> {
    (0..MADE)
        .map(|_| Ring::new(Global, u64::from(MOST_CAPACITY)).unwrap())
        .collect()
}

/// Measures how many bytes a retained value takes, in rings of the greatest capacity.
fn value_bytes() -> u64 {
    bytes_each(MADE * u64::from(MOST_CAPACITY), rings)
}

/// Opens worlds of these channels.
fn worlds(specs: &[Spec<u64>]) -> Vec<World<u64>> {
    (0..WORLDS).map(|_| open(Global, specs).unwrap()).collect()
}

/// Watches, as many as a world has.
static WATCHES: [Spec<u64>; MOST_CHANNELS] = [Spec::Watch(0); MOST_CHANNELS];

/// Measures how many bytes a watch takes, in worlds of as many channels as a world has.
fn channel_bytes() -> u64 {
    bytes_each(WORLDS * MOST_CHANNELS as u64, || worlds(&WATCHES))
}

/// Prints how many bytes were asked for, and how many were used.
fn tell(name: &str, asked: usize, taken: u64) {
    println!("bytes of {name}: {taken}, {asked} asked for");
}

/// Prints how much memory a channel, a retained value and a handle take. Freed memory may be used again, so the
/// smallest pieces come first, before any other work.
pub fn report_memory() {
    // A channel in its row, and its first two handles.
    let channel = size_of::<Chan<u64>>() + 2 * size_of::<Slot<Option<u64>>>();
    tell("a watch", channel, channel_bytes());
    tell("a retained value", size_of::<u64>(), value_bytes());
    tell("a handle", size_of::<Slot<u64>>(), handle_bytes());
    tell(
        "a handle of a broadcast",
        size_of::<Slot<u64>>(),
        broadcast_handle_bytes(),
    );
}
