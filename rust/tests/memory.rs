//! The memory that channels take, by counting what is allocated. A program of its own, since the
//! allocator counts for all threads.

#[path = "support/allocated.rs"]
mod allocated;

use allocated::allocated;
use std::sync::{Mutex, MutexGuard, PoisonError};
use yovanelum::{Recorder, broadcast, watch};

type Broadcast = (broadcast::Sender<u64>, broadcast::Receiver<u64>);
type Watch = (watch::Sender<u64>, watch::Receiver<u64>);

/// Has the tests run one after another.
fn alone() -> MutexGuard<'static, ()> {
    static ALONE: Mutex<()> = Mutex::new(());
    ALONE.lock().unwrap_or_else(PoisonError::into_inner)
}

/// Some channels of both kinds, and how many bytes were allocated when they were opened.
struct Channels {
    at_start: usize,
    broadcasts: Vec<Broadcast>,
    watches: Vec<Watch>,
}

/// How many channels there are of each kind.
const COUNT: usize = 2;

/// How many calls are made on each channel, half of them sends. A channel has room for a handle for
/// each value, up to 65,536.
const CALLS: u64 = 140_000;

impl Channels {
    fn open() -> Channels {
        Channels {
            at_start: allocated(),
            broadcasts: (0..COUNT).map(|_| broadcast::channel(16)).collect(),
            watches: (0..COUNT).map(|_| watch::channel(0)).collect(),
        }
    }

    /// Makes calls on all channels. Returns how many bytes are allocated then that weren't at the
    /// start.
    fn call(&mut self) -> usize {
        for value in 0..CALLS / 2 {
            for (tx, rx) in &mut self.broadcasts {
                tx.send(value).unwrap();
                assert_eq!(rx.try_recv(), Ok(value));
            }
            for (tx, rx) in &mut self.watches {
                tx.send(value).unwrap();
                assert_eq!(*rx.borrow_and_update(), value);
            }
        }
        allocated().saturating_sub(self.at_start)
    }
}

/// Opens channels, and makes calls on them twice. Returns the bytes after each time.
fn played() -> (usize, usize) {
    let mut channels = Channels::open();
    (channels.call(), channels.call())
}

/// How often memory is looked at, at most. Threads of the harness allocate too, as where another
/// test begins to wait for its turn, so the best look is judged.
const LOOKS: usize = 20;

/// The same where more calls take nothing more. Returns the bytes after the first time.
fn played_without_more() -> usize {
    // What a thread or the process allocates once is allocated at first.
    let mut looks = (0..LOOKS).map(|_| played()).skip(1);
    let found = looks.find(|(first, both)| first == both);
    found.expect("calls that take nothing more").0
}

/// The most memory of a channel without entries: room for 65,536 handles of 16 bytes, which a list
/// that grows exceeds by up to a half.
const MOST_OF_A_CHANNEL: usize = 65_536 * 24;

/// The memory of an entry, at least.
const ENTRY: usize = 64;

#[test]
fn what_is_not_recorded_takes_no_memory_for_entries() {
    let _alone = alone();
    let plain = played_without_more();
    let recorder = Recorder::new();
    let _entered = recorder.enter();
    let off = Recorder::off().enter();
    let under_off = played_without_more();
    drop(off);
    let (recorded, _) = played();
    for bytes in [plain, under_off] {
        assert!(bytes < 2 * COUNT * MOST_OF_A_CHANNEL, "{bytes} bytes");
    }
    assert!(
        recorded > 2 * COUNT * CALLS as usize * ENTRY,
        "{recorded} bytes"
    );
    // The calls, and two drops of each channel.
    assert_eq!(recorder.len(), 2 * COUNT as u64 * (2 * CALLS + 2));
}

/// Returns how many bytes a channel has, with its two handles, of those that this opens.
fn bytes_of_each<H>(is_recorded: bool, open: impl Fn() -> H) -> usize {
    let looks = (0..LOOKS).map(|_| bytes_of_pairs(is_recorded, &open));
    looks.min().unwrap()
}

fn bytes_of_pairs<H>(is_recorded: bool, open: impl Fn() -> H) -> usize {
    const PAIRS: usize = 60;
    // A recorder has 64 channels.
    let recorder = is_recorded.then(Recorder::new);
    let _entered = recorder.as_ref().map(Recorder::enter);
    let mut pairs = Vec::with_capacity(PAIRS);
    // What a thread or the process allocates once is allocated here.
    drop(open());
    let at_start = allocated();
    pairs.resize_with(PAIRS, open);
    (allocated() - at_start) / PAIRS
}

#[test]
fn a_channel_that_is_opened_takes_a_kilobyte_and_a_half_at_most() {
    const MOST: usize = 1536;
    let _alone = alone();
    for is_recorded in [false, true] {
        let bytes = [
            bytes_of_each(is_recorded, || broadcast::channel::<u64>(16)),
            bytes_of_each(is_recorded, || watch::channel(0_u64)),
        ];
        assert!(bytes.iter().all(|bytes| *bytes <= MOST), "{bytes:?}");
    }
}

#[test]
fn a_handle_has_two_words_and_a_watch_s_receiver_what_it_has_seen() {
    let sizes = [
        size_of::<broadcast::Sender<u64>>(),
        size_of::<broadcast::Receiver<u64>>(),
        size_of::<broadcast::WeakSender<u64>>(),
        size_of::<watch::Sender<u64>>(),
    ];
    assert_eq!(sizes, [16; 4]);
    assert_eq!(size_of::<watch::Receiver<u64>>(), 24);
}

/// How many faults of pages this process has had that needed no disk.
#[cfg(all(target_os = "linux", target_env = "gnu"))]
fn faults() -> u64 {
    let line = std::fs::read_to_string("/proc/self/stat").unwrap();
    let (_, behind) = line.rsplit_once(')').unwrap();
    behind.split_whitespace().nth(7).unwrap().parse().unwrap()
}

#[cfg(all(target_os = "linux", target_env = "gnu"))]
#[test]
fn a_recorder_is_served_by_the_memory_of_those_that_ended() {
    let _alone = alone();
    let faults_of_one = || {
        let before = faults();
        let recorder = Recorder::new();
        let _entered = recorder.enter();
        let (tx, mut rx) = broadcast::channel(16);
        for value in 0..CALLS {
            tx.send(value).unwrap();
            assert_eq!(rx.try_recv(), Ok(value));
        }
        faults() - before
    };
    // The calls alone are 2,188 pages, or 512 and a few large ones. A system that is short of
    // memory takes pages away at times, so the best of those behind the second is judged.
    let mut faults = (0..LOOKS).map(|_| faults_of_one()).skip(2);
    assert!(faults.any(|faults| faults < 256));
}
