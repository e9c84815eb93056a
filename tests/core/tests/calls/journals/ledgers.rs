//! A ledger of a small machine beside its book.

use crate::cell::{Call, Cell, Reply};
use proved::Global;
use proved::rw_journal::{Book, CallForm, Ledger, NotedCall, TakeFault, entries_of};
use proved::rw_law::Entry;

impl CallForm<Call> for Call {
    fn of(call: &Call) -> Call {
        *call
    }

    fn to_call(&self) -> Call {
        *self
    }
}

type CellLedger = Ledger<Cell, Call>;

/// Opens a ledger of a cell that can be set 100 times.
fn open_ledger() -> CellLedger {
    Ledger::open(Global, Cell::new(100)).unwrap()
}

/// Opens a book of such a cell.
fn open_book() -> Book<Cell> {
    Book::open(Global, Cell::new(100)).unwrap()
}

/// The stamp and the value before, or why a call wasn't recorded.
type Answer = Result<(u64, u64), TakeFault>;

/// Makes a call by actor 63 on a ledger.
fn note(ledger: &mut CellLedger, clock: u64, call: Call) -> Answer {
    let receipt = ledger.take(63, clock, call)?;
    match receipt.reply {
        Reply::Was(value) => Ok((receipt.stamp, value)),
        _ => unreachable!(),
    }
}

/// Makes a call by actor 63 on a book.
fn take(book: &mut Book<Cell>, clock: u64, call: Call) -> Answer {
    let receipt = book.take(63, clock, call)?;
    match receipt.reply {
        Reply::Was(value) => Ok((receipt.stamp, value)),
        _ => unreachable!(),
    }
}

/// Makes five calls on a ledger, of which one would wait and one strays.
fn note_five(ledger: &mut CellLedger) -> [Answer; 5] {
    [
        note(ledger, 0, Call::Set(1)),
        note(ledger, 9, Call::Set(7)),
        note(ledger, 9, Call::Wait),
        note(ledger, 9, Call::Stray),
        note(ledger, 3, Call::Set(8)),
    ]
}

/// Makes the same calls on a book.
fn take_five(book: &mut Book<Cell>) -> [Answer; 5] {
    [
        take(book, 0, Call::Set(1)),
        take(book, 9, Call::Set(7)),
        take(book, 9, Call::Wait),
        take(book, 9, Call::Stray),
        take(book, 3, Call::Set(8)),
    ]
}

/// The actor and the stamp of an entry, and its patch.
type Mark = (u32, u64, u64);

/// Returns the marks of entries.
fn marks_of(entries: &[Entry<Cell>]) -> Vec<Mark> {
    let marks = entries
        .iter()
        .map(|entry| (entry.actor, entry.stamp, entry.patch));
    marks.collect()
}

/// Takes a ledger apart: its length, the value of its cell, and the marks of the entries that its calls make.
fn ledger_parts(ledger: CellLedger) -> (u64, u64, Vec<Mark>) {
    let len = ledger.len();
    let value = ledger.machine().value();
    let (_cell, calls) = ledger.into_parts();
    let entries = entries_of(Global, Cell::new(100), &calls).unwrap();
    (len, value, marks_of(&entries))
}

/// Takes a book apart in the same way.
fn book_parts(book: Book<Cell>) -> (u64, u64, Vec<Mark>) {
    let len = book.len();
    let value = book.machine().value();
    let (_cell, entries) = book.into_parts();
    (len, value, marks_of(&entries))
}

#[test]
fn a_ledger_makes_the_entries_of_a_book() {
    let mut ledger = open_ledger();
    let mut book = open_book();
    let (noted, taken) = (note_five(&mut ledger), take_five(&mut book));
    let parts = ledger_parts(ledger);
    let wanted = book_parts(book);
    assert_eq!(noted, taken);
    assert_eq!((parts.0, parts.1), (3, 8));
    assert_eq!(parts.2.as_slice(), wanted.2);
    let marks: &[Mark] = &[(63, 1, 0), (63, 10, 1), (63, 11, 7)];
    assert_eq!(parts.2.as_slice(), marks);
    assert_eq!(size_of::<NotedCall<Call>>(), 32);
}
