//! Books of a small machine.

use crate::cell::{Call, Cell, Reply};
use proved::Global;
use proved::rw_journal::{Book, TakeFault};
use proved::rw_law::{Entry, Reversible};

/// Opens a book of a cell that can be set this often.
fn open(most: u64) -> Book<Cell> {
    Book::open(Global, Cell::new(most)).unwrap()
}

/// Makes room for the next call at this clock.
fn ready(book: &mut Book<Cell>, clock: u64) -> Result<(), TakeFault> {
    book.ready(clock)
}

/// Makes a call by actor 63, and returns the stamp of its receipt and the value before it.
fn take(book: &mut Book<Cell>, clock: u64, call: Call) -> Result<(u64, u64), TakeFault> {
    let receipt = book.take(63, clock, call)?;
    match receipt.reply {
        Reply::Was(value) => Ok((receipt.stamp, value)),
        _ => unreachable!(),
    }
}

/// Returns how many entries a book has.
fn length(book: &Book<Cell>) -> u64 {
    book.len()
}

/// Whether a book has no entry.
fn is_empty(book: &Book<Cell>) -> bool {
    book.is_empty()
}

/// Rewinds the last entry, and returns its stamp and the value that is left.
fn rewind(book: &mut Book<Cell>) -> Option<(u64, u64)> {
    let entry = book.rewind()?;
    Some((entry.stamp, book.machine().value()))
}

#[test]
fn takes_and_rewinds() {
    let mut book = open(100);
    let answers = [
        take(&mut book, 0, Call::Set(1)),
        take(&mut book, 9, Call::Set(7)),
        take(&mut book, 9, Call::Wait),
        take(&mut book, 9, Call::Stray),
        take(&mut book, 3, Call::Set(8)),
    ];
    let len = length(&book);
    let entries = [
        rewind(&mut book),
        rewind(&mut book),
        rewind(&mut book),
        rewind(&mut book),
    ];
    let is_empty = is_empty(&book);
    let (waits, strays) = (Err(TakeFault::Waits), Err(TakeFault::NoChannel));
    assert_eq!(
        answers,
        [Ok((1, 0)), Ok((10, 1)), waits, strays, Ok((11, 7))]
    );
    assert_eq!(entries, [Some((11, 7)), Some((10, 1)), Some((1, 0)), None]);
    assert_eq!((len, is_empty), (3, true));
}

#[test]
fn runs_up_to_a_fault() {
    let mut book = open(100);
    let ran = runs_twice(&mut book);
    let (stamp, value, marks) = parts(book);
    assert_eq!(ran, [Err((2, TakeFault::NoChannel)), Ok(())]);
    assert_eq!((stamp, value), (Some(2), 3));
    let wanted: &[(u32, u64)] = &[(0, 1), (63, 2), (5, 3)];
    assert_eq!(marks.as_slice(), wanted);
}

/// Runs three calls, of which the last strays, and then one more.
fn runs_twice(book: &mut Book<Cell>) -> [Result<(), (u64, TakeFault)>; 2] {
    [
        book.run(&[(0, Call::Set(1)), (63, Call::Set(2)), (1, Call::Stray)]),
        book.run(&[(5, Call::Set(3))]),
    ]
}

/// The stamp of a book's second entry, the value of its cell, and the actor and stamp of each entry.
type Parts = (Option<u64>, u64, Vec<(u32, u64)>);

/// Takes a book apart.
fn parts(book: Book<Cell>) -> Parts {
    let stamp = book.entry(1).map(|e| e.stamp);
    let (cell, entries) = book.into_parts();
    let marks = marks_of(&entries);
    (stamp, cell.value(), marks)
}

/// Returns the actor and the stamp of each entry.
fn marks_of<M: Reversible>(entries: &[Entry<M>]) -> Vec<(u32, u64)> {
    let mut marks = Vec::new();
    for entry in entries {
        marks.push((entry.actor, entry.stamp));
    }
    marks
}

#[test]
fn stamps_end_at_two_to_the_62() {
    let mut book = open(100);
    ends_its_stamps(&mut book);
}

/// The last stamp.
const LAST: u64 = 1 << 62;

/// Clocks one after the other, and what a call at each of them returns.
static CLOCKS: [(u64, Result<(u64, u64), TakeFault>); 5] = [
    (u64::MAX, Err(TakeFault::JournalFull)),
    (LAST, Err(TakeFault::JournalFull)),
    (LAST - 1, Ok((LAST, 0))),
    (0, Err(TakeFault::JournalFull)),
    (u64::MAX, Err(TakeFault::JournalFull)),
];

/// The last stamp is used, and no call is recorded after it.
fn ends_its_stamps(book: &mut Book<Cell>) {
    for (clock, answer) in &CLOCKS {
        assert_eq!(ready(book, *clock).is_ok(), answer.is_ok());
        assert_eq!(take(book, *clock, Call::Set(1)), *answer);
    }
}

#[test]
fn a_machine_without_room_refuses() {
    let is_closed = Book::open(Global, Cell::new(0)).is_err();
    let mut book = open(20);
    runs_out_of_room(&mut book);
    assert!(is_closed);
}

/// Twenty values can be set. After that, one can be set only if one is rewound first.
fn runs_out_of_room(book: &mut Book<Cell>) {
    for i in 0..20 {
        assert!(take(book, 0, Call::Set(i)).is_ok());
    }
    let refused = Err(TakeFault::NoMemory);
    assert_eq!(ready(book, 0), refused);
    for answer in [refused.map(|()| (0, 0)), Ok((20, 18))] {
        assert_eq!(take(book, 0, Call::Set(20)), answer);
        assert_eq!(rewind(book), Some((20, 18)));
    }
}
