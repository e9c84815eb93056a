//! Channels, calls and journals whose memory is refused: each says so, and goes on when there is
//! memory again. What the crate allocates beside its core is small here, and isn't refused: as
//! elsewhere in Rust that would end the process.

#[path = "support/refusing.rs"]
mod refusing;

use refusing::{Refusal, Refusing, refusing};
use std::any::Any;
use std::ops::Range;
use std::panic::{AssertUnwindSafe, catch_unwind};
use yovanelum::broadcast::error::TryRecvError;
use yovanelum::{Recorder, broadcast, watch};

#[global_allocator]
static ALLOCATOR: Refusing = Refusing;

/// Refuses the first request of at least this many bytes.
fn first_above(least: usize) -> Refusal {
    Refusal {
        least,
        ..Refusal::only(0)
    }
}

/// Makes a call and refuses its memory. Returns what it panicked with, if a request was refused.
fn panic_of<T>(refusal: Refusal, call: impl FnOnce() -> T) -> Option<String> {
    let (result, refused) = refusing(refusal, || catch_unwind(AssertUnwindSafe(call)));
    assert_eq!(result.is_err(), refused > 0);
    result.err().map(text_of)
}

fn text_of(panic: Box<dyn Any + Send>) -> String {
    panic.downcast_ref::<&str>().expect("a text").to_string()
}

#[test]
#[cfg_attr(target_family = "wasm", ignore = "WebAssembly ends at the first panic")]
fn a_channel_that_finds_no_memory_panics_and_is_not_in_the_journal() {
    let recorder = Recorder::new();
    let _entered = recorder.enter();
    let (_first, _rx) = broadcast::channel::<u64>(4);
    // The ring of 1024 values is the one block above 8 KiB.
    let refusal = first_above(8 << 10);
    let said = panic_of(refusal, || broadcast::channel::<u64>(1024));
    assert_eq!(said.as_deref(), Some("yovanelum: no memory for a channel"));
    let (_second, _rx) = broadcast::channel::<u64>(8);
    let journal = recorder.journal().unwrap();
    let wanted = [
        "ttd-journal 2",
        "broadcast 4",
        "broadcast 8",
        "steps",
        "end",
    ];
    assert!(journal.lines().eq(wanted), "{journal}");
}

/// Sends values to a broadcast and to a watch, and reads them. A call that finds no memory is made
/// again. Returns the journal, and how many calls found none.
fn played(refusal: Refusal) -> (String, u32) {
    const NO_MEMORY: &str = "yovanelum: no memory for a call";
    let recorder = Recorder::new();
    let _entered = recorder.enter();
    let (tx, mut rx) = broadcast::channel(4);
    let (setting, mut seen) = watch::channel(0);
    let mut refused = 0;
    for value in 1..3_000u64 {
        if let Some(said) = panic_of(refusal, || tx.send(value).unwrap()) {
            assert_eq!(said, NO_MEMORY);
            refused += 1;
            tx.send(value).unwrap();
        }
        assert_eq!(rx.try_recv(), Ok(value));
        if let Some(said) = panic_of(refusal, || setting.send(value).unwrap()) {
            assert_eq!(said, NO_MEMORY);
            refused += 1;
            setting.send(value).unwrap();
        }
        assert_eq!(*seen.borrow_and_update(), value);
    }
    (recorder.journal().unwrap(), refused)
}

/// The words of each line. A call that found no memory has used up a stamp, and the number of its
/// value.
fn words(journal: &str) -> Vec<Vec<&str>> {
    let lines = journal.lines().map(|line| line.split(' '));
    lines
        .map(|words| words.filter(|word| word.parse::<u64>().is_err()).collect())
        .collect()
}

#[test]
#[cfg_attr(target_family = "wasm", ignore = "WebAssembly ends at the first panic")]
fn a_call_that_finds_no_memory_panics_and_leaves_no_entry() {
    let (wanted, refused) = played(Refusal::above(usize::MAX));
    assert_eq!(refused, 0);
    // A channel's entries are the blocks above 48 KiB. They grow to 64, 128 and 256 KiB, each time
    // by a send, since each second entry is one.
    let (journal, refused) = played(first_above(48 << 10));
    assert_eq!(refused, 2 * 3);
    assert!(words(&journal) == words(&wanted), "the journals differ");
}

#[test]
fn a_journal_that_finds_no_memory_is_an_error_and_can_be_asked_for_again() {
    let recorder = Recorder::new();
    let _entered = recorder.enter();
    let (tx, mut rx) = broadcast::channel(4);
    let (setting, _seen) = watch::channel(0);
    for value in 0..2_000u64 {
        tx.send(value).unwrap();
        setting.send(value).unwrap();
        rx.try_recv().unwrap();
    }
    let journal = recorder.journal().unwrap();
    let mut requests = 0;
    loop {
        let refusal = Refusal {
            least: 1 << 10,
            ..Refusal::after(requests)
        };
        let (result, refused) = refusing(refusal, || recorder.journal());
        if refused == 0 {
            assert_eq!(result.unwrap(), journal);
            break;
        }
        assert_eq!(result.unwrap_err().to_string(), "no memory for the journal");
        assert_eq!(recorder.journal().unwrap(), journal);
        requests += 1;
    }
    // At least one for the calls of each channel, one for them together, and one for the text.
    assert!(requests >= 4, "{requests}");
}

/// How many receivers are alive on a channel whose core has no room for a handle, unless it takes
/// out the dropped ones.
const ALIVE: u64 = 33_000;

type Channel = (broadcast::Sender<u64>, Vec<broadcast::Receiver<u64>>);

/// Creates such a channel.
fn full_channel() -> Channel {
    let _off = Recorder::off().enter();
    let (tx, rx) = broadcast::channel(4);
    let mut alive = vec![rx];
    alive.extend((1..ALIVE).map(|_| tx.subscribe()));
    (ALIVE + 1..65_536).for_each(|_| drop(tx.subscribe()));
    (tx, alive)
}

/// Sends a value that each receiver receives, creates 70,000 handles more, and closes the channel.
fn goes_on((tx, mut alive): Channel) {
    assert_eq!(tx.send(7).unwrap(), alive.len());
    (0..70_000).for_each(|_| drop(tx.subscribe()));
    alive.push(tx.subscribe());
    assert_eq!(tx.send(8).unwrap(), alive.len());
    drop(tx);
    assert_eq!(alive.pop().unwrap().try_recv(), Ok(8));
    for rx in &mut alive {
        assert_eq!((rx.try_recv(), rx.try_recv()), (Ok(7), Ok(8)));
        assert_eq!(rx.try_recv(), Err(TryRecvError::Closed));
    }
}

#[test]
fn a_channel_goes_on_where_it_finds_no_memory_to_take_dropped_handles_out() {
    let mut requests = 0;
    loop {
        let (tx, mut alive) = full_channel();
        let refusal = Refusal {
            least: 100 << 10,
            ..Refusal::only(requests)
        };
        let (created, refused) = refusing(refusal, || tx.subscribe());
        alive.push(created);
        goes_on((tx, alive));
        if refused == 0 {
            break;
        }
        requests += 1;
    }
    // At least one for the numbers that the core has, one for those of the channel, and one for
    // what the core returns.
    assert!(requests >= 3, "{requests}");
}

#[test]
#[cfg_attr(target_family = "wasm", ignore = "WebAssembly ends at the first panic")]
fn a_handle_for_which_there_is_no_memory_is_not_created() {
    let (tx, alive) = full_channel();
    let said = panic_of(Refusal::above(100 << 10), || tx.subscribe());
    assert_eq!(said.as_deref(), Some("yovanelum: no memory for a call"));
    assert_eq!(tx.receiver_count(), alive.len());
    goes_on((tx, alive));
}

#[test]
#[cfg_attr(target_family = "wasm", ignore = "WebAssembly has no threads")]
fn a_flight_recorder_that_finds_no_memory_loses_a_dump_and_no_call() {
    let folder = std::env::temp_dir().join(format!("no-memory-{}", std::process::id()));
    let mut requests = 0;
    loop {
        let recorder = Recorder::flight(1_000);
        recorder.dump_to(&folder).when_lag(1);
        let _entered = recorder.enter();
        let (tx, mut rx) = broadcast::channel(4);
        for value in 0..1_500u64 {
            tx.send(value).unwrap();
        }
        // The copies of the calls, and of where they were made.
        let refusal = Refusal {
            least: 8 << 10,
            ..Refusal::only(requests)
        };
        let (reply, refused) = refusing(refusal, || rx.try_recv());
        assert_eq!(reply, Err(TryRecvError::Lagged(1_496)));
        assert_eq!(rx.try_recv(), Ok(1_496));
        if refused == 0 {
            while recorder.dumps().written() == 0 {
                std::thread::yield_now();
            }
            break;
        }
        assert_eq!(recorder.dumps().failed(), 1);
        // There is memory again.
        recorder.dump("asked for").wait().unwrap();
        requests += 1;
    }
    assert!(requests >= 2, "{requests}");
    std::fs::remove_dir_all(folder).unwrap();
}

#[test]
fn a_channel_whose_last_calls_find_no_memory_is_recorded_by_none() {
    let recorder = Recorder::flight(1_000);
    let _entered = recorder.enter();
    // The channel has one block above 64 KiB, of 65,536 values, and so has each of its copies.
    let refusal = Refusal {
        least: 64 << 10,
        ..Refusal::only(1)
    };
    let ((tx, mut rx), refused) = refusing(refusal, || broadcast::channel(65_536));
    assert_eq!(refused, 1);
    tx.send(7).unwrap();
    assert_eq!(rx.try_recv(), Ok(7));
    assert_eq!(recorder.len(), 0);
    let (later, _rx) = broadcast::channel(4);
    later.send(8).unwrap();
    assert_eq!(recorder.len(), 1);
}

#[test]
fn the_last_calls_of_a_channel_go_on_where_a_chunk_finds_no_memory() {
    // A chunk of fewer calls would grow, since it copies the handles.
    let recorder = Recorder::flight(2_100);
    let _entered = recorder.enter();
    let (tx, mut rx) = broadcast::channel(4);
    let _others: Vec<_> = (0..2_000).map(|_| tx.subscribe()).collect();
    let mut make_calls = |values: Range<u64>| {
        for value in values {
            tx.send(value).unwrap();
            assert_eq!(rx.try_recv(), Ok(value));
        }
    };
    // Then both lists of calls have the memory of a chunk.
    make_calls(0..2_150);
    let before = recorder.len();
    // The copy of the table of 2,002 handles is the one block above 32 KiB.
    let ((), refused) = refusing(Refusal::above(32 << 10), || make_calls(2_150..3_450));
    assert!(refused > 100, "{refused}");
    assert_eq!(recorder.len(), before + 2_600);
    make_calls(3_450..8_000);
    assert!(recorder.len() <= 4_200);
    assert!(
        recorder
            .journal()
            .unwrap()
            .ends_with(" = value 7999\nend\n")
    );
}
