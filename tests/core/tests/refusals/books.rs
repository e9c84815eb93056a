//! Books: opened, made ready, and called one call at a time and by lists.

use crate::machines::MUCH;
use crate::met::{refused, say};
use crate::readings::{Readings, Shows};
use proved::Global;
use proved::rw_journal::{Book, TakeFault};
use proved::rw_law::NoMemory;
use std::fmt::Debug;

/// A book of any machine.
pub trait Booked: Sized {
    type Call: Copy;

    type Reply;

    /// A book without entries. Where memory is refused for it, its machine is dropped.
    fn open() -> Result<Self, NoMemory>;

    /// What is compared of it: how long it is, and what its machine shows.
    fn shown(&self) -> (u64, Readings);

    /// Records a call by an actor with clock 0, and returns its stamp and its reply.
    fn take(&mut self, actor: u32, call: Self::Call) -> Result<(u64, Self::Reply), TakeFault>;

    /// Makes room for the next call.
    fn ready(&mut self) -> Result<(), TakeFault>;

    /// Runs calls, and returns where it stopped.
    fn run(&mut self, calls: &[(u32, Self::Call)]) -> Result<(), (u64, TakeFault)>;
}

impl<M: Shows> Booked for Book<M> {
    type Call = M::Call;

    type Reply = M::Reply;

    fn open() -> Result<Book<M>, NoMemory> {
        let machine = M::open()?;
        if machine.weight() > MUCH {
            return Err(NoMemory);
        }
        Book::open(Global, machine)
    }

    fn shown(&self) -> (u64, Readings) {
        (self.len(), self.machine().readings())
    }

    fn take(&mut self, actor: u32, call: M::Call) -> Result<(u64, M::Reply), TakeFault> {
        match Book::take(self, actor, 0, call) {
            Ok(receipt) => Ok((receipt.stamp, receipt.reply)),
            Err(fault) => Err(fault),
        }
    }

    fn ready(&mut self) -> Result<(), TakeFault> {
        Book::ready(self, 0)
    }

    fn run(&mut self, calls: &[(u32, M::Call)]) -> Result<(), (u64, TakeFault)> {
        Book::run(self, calls)
    }
}

/// A book, opened with one retry.
fn new_book<B: Booked>() -> Result<B, NoMemory> {
    match B::open() {
        Ok(book) => Ok(book),
        Err(NoMemory) => {
            refused(true);
            B::open()
        }
    }
}

/// Records a call by an actor, with one retry.
fn take<B: Booked>(book: &mut B, actor: u32, call: B::Call) -> Result<(u64, B::Reply), TakeFault> {
    let before = book.shown();
    match book.take(actor, call) {
        Err(TakeFault::NoMemory) => {
            refused(book.shown() == before);
            book.take(actor, call)
        }
        answer => answer,
    }
}

/// Makes room for the next call, with one retry.
fn ready<B: Booked>(book: &mut B) -> Result<(), TakeFault> {
    let before = book.shown();
    match book.ready() {
        Err(TakeFault::NoMemory) => {
            refused(book.shown() == before);
            book.ready()
        }
        answer => answer,
    }
}

/// Runs calls on a book, and returns where it stopped. The calls before a refusal stay recorded, and the others are run again.
fn run<B: Booked>(book: &mut B, calls: &[(u32, B::Call)]) -> Result<(), (u64, TakeFault)> {
    let length = book.shown().0;
    match book.run(calls) {
        Err((taken, TakeFault::NoMemory)) => {
            refused(book.shown().0 == length.saturating_add(taken));
            let (_, left) = calls.split_at((taken as usize).min(calls.len()));
            book.run(left)
        }
        answer => answer,
    }
}

/// Takes calls by actor 1 one by one, and says what each returns.
fn take_all<B: Booked>(book: &mut B, calls: &[B::Call])
where
    B::Reply: Debug,
{
    for call in calls {
        say!("  {:?}", take(book, 1, *call));
    }
}

/// Runs a list of calls once, and says where it stopped and how long the book is then.
fn say_run<B: Booked>(book: &mut B, calls: &[(u32, B::Call)]) {
    let answer = run(book, calls);
    say!("  {answer:?}, then {} entries", book.shown().0)
}

/// Runs a list of calls so often that it is longer than the room of a new book, and says how long the book is after each time.
fn run_all<B: Booked>(book: &mut B, calls: &[(u32, B::Call)]) {
    for _ in 0..12 {
        say_run(book, calls);
    }
}

/// Makes room for one more call, and says what the book's machine shows then.
fn say_ready<B: Booked>(book: &mut B) {
    let readied = ready(book);
    let (_, readings) = book.shown();
    say!("  {readied:?}, {readings:?}")
}

/// Takes calls, runs a list of them often, and makes room for one more.
fn play_calls<B: Booked>(book: &mut B, single: &[B::Call], listed: &[(u32, B::Call)])
where
    B::Reply: Debug,
{
    take_all(book, single);
    run_all(book, listed);
    say_ready(book)
}

/// Opens a book, and plays it.
pub fn play_book<B: Booked>(single: &[B::Call], listed: &[(u32, B::Call)])
where
    B::Reply: Debug,
{
    let Ok(mut book) = new_book::<B>() else {
        return say!("  isn't opened");
    };
    play_calls(&mut book, single, listed);
}
