//! How long the steps of a list of calls take.

use proved::Global;
use proved::rw_journal::Book;
use proved::rw_law::Reversible;
use proved::rw_navigator::{Move, Navigator};
use std::time::{Duration, Instant};

/// What was measured of a list of calls, with replies of this type.
pub struct Measured<R> {
    /// Of the calls made on the machine alone.
    pub apply: Duration,
    /// Of the same calls recorded by a book.
    pub take: Duration,
    /// Of the walk from the start of the book's journal to its end.
    pub redo: Duration,
    /// Of the walk back.
    pub undo: Duration,
    /// How many calls there were.
    pub steps: u64,
    /// The book's reply to the last call.
    pub last: Option<R>,
    /// How many steps both walks made together.
    pub turns: u64,
}

/// Runs something. Returns its result, and how long it took.
fn timed<T>(run: impl FnOnce() -> T) -> (T, Duration) {
    let begin = Instant::now();
    let result = run();
    (result, begin.elapsed())
}

/// Makes the calls on one machine, records them in the book of another, and walks over the book's journal with a third.
pub fn measure<M: Reversible>(open: impl Fn() -> M, calls: &[M::Call]) -> Measured<M::Reply> {
    let mut machine = open();
    machine.ready(calls.len() as u64).unwrap();
    let (_, apply) = timed(|| calls.iter().map(|call| machine.apply(call)).last());
    let mut book = Book::open(Global, open()).unwrap();
    let ((), take) = timed(|| {
        for call in calls {
            assert!(book.take(0, 0, *call).is_ok());
        }
    });
    let mut navigator = Navigator::open(Global, open(), book.entries()).unwrap();
    let (end, redo) = timed(|| navigator.step(Move::End));
    let (start, undo) = timed(|| navigator.step(Move::Start));
    end.and(start).unwrap();
    Measured {
        apply,
        take,
        redo,
        undo,
        steps: calls.len() as u64,
        last: book.entries().last().map(|entry| entry.reply),
        turns: navigator.turns(),
    }
}
