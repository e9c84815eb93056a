//! The last calls of a small machine, in chunks of two.

use crate::cell::{Call, Cell, Reply};
use proved::Global;
use proved::rw_journal::{MOST_RECENT_STAMP, RecentCalls, TakeFault};

type CellCalls = RecentCalls<Cell, Call>;

/// Opens the last calls of a cell, in chunks of two.
fn open() -> CellCalls {
    RecentCalls::open(Global, Cell::new(100), 2, 2).unwrap()
}

/// Makes a call by actor 5, and returns its stamp and the value before.
fn take(recent: &mut CellCalls, clock: u64, call: Call) -> Result<(u64, u64), TakeFault> {
    let receipt = recent.take(5, clock, call)?;
    match receipt.reply {
        Reply::Was(value) => Ok((receipt.stamp, value)),
        _ => unreachable!(),
    }
}

/// Sets the cell to 1, 2, .., and at last to this value. Each call returns its stamp and the value before.
fn set_up_to(recent: &mut CellCalls, last: u64) {
    for value in 1..=last {
        assert_eq!(
            take(recent, 0, Call::Set(value)),
            Ok((value, value - 1)),
            "set {value}"
        );
    }
}

/// The stamps of the calls of both chunks.
fn stamps(recent: &CellCalls) -> [Vec<u64>; 2] {
    let (older, newer) = recent.calls();
    [older, newer].map(|calls| calls.iter().map(|noted| noted.stamp).collect())
}

/// How many calls were dropped and are stored, and the value of the cell before the stored ones and after all.
fn counts(recent: &CellCalls) -> [u64; 4] {
    [
        recent.dropped(),
        recent.len(),
        recent.base().value(),
        recent.machine().value(),
    ]
}

#[test]
fn chunks_of_two() {
    let mut recent = open();
    set_up_to(&mut recent, 1);
    assert_eq!(stamps(&recent), [vec![], vec![1]]);
    assert_eq!(counts(&recent), [0, 1, 0, 1]);
    let mut recent = open();
    set_up_to(&mut recent, 3);
    assert_eq!(stamps(&recent), [vec![1, 2], vec![3]]);
    assert_eq!(counts(&recent), [0, 3, 0, 3]);
    let mut recent = open();
    set_up_to(&mut recent, 5);
    assert_eq!(stamps(&recent), [vec![3, 4], vec![5]]);
    assert_eq!(counts(&recent), [2, 3, 2, 5]);
}

#[test]
fn a_call_that_is_not_noted_drops_nothing() {
    let mut recent = open();
    set_up_to(&mut recent, 3);
    assert_eq!(take(&mut recent, 0, Call::Wait), Err(TakeFault::Waits));
    assert_eq!(take(&mut recent, 0, Call::Stray), Err(TakeFault::NoChannel));
    assert!(recent.forget().is_ok());
    assert_eq!(stamps(&recent), [vec![1, 2], vec![3]]);
    assert_eq!(counts(&recent), [0, 3, 0, 3]);
}

#[test]
fn stamps_end_before_weights_do() {
    let mut recent = open();
    let last = MOST_RECENT_STAMP;
    assert_eq!(take(&mut recent, last - 1, Call::Set(7)), Ok((last, 0)));
    assert_eq!(
        take(&mut recent, 0, Call::Set(8)),
        Err(TakeFault::JournalFull)
    );
    assert_eq!(
        take(&mut recent, last, Call::Wait),
        Err(TakeFault::JournalFull)
    );
    assert_eq!(counts(&recent), [0, 1, 0, 7]);
}
