//! Passes: calls on the book of a channel, each with its receipt.

use crate::met::{made, refused, say};
use crate::readings::{SPECS, counted};
use proved::Global;
use proved::rw_broadcast::BCall;
use proved::rw_desk::{DeskFault, Pass};
use proved::rw_journal::Book;
use proved::rw_law::NoMemory;
use proved::rw_watch::WCall;
use proved::rw_world::{Chan, ChanCall, ChanReply, Spec, open_channel};
use std::fmt::Debug;
use support::desks::StampedCall;

/// What is compared of a book of a channel: its length, its handles, and its sends or notified changes.
pub type BookReadings = (u64, (u32, u64));

/// A pass, and a book that it records calls on.
trait Records {
    /// What the calls carry.
    type Value: Copy;

    /// What is compared of it: how many receipts the pass has, its clock, and what the book shows.
    fn shown(&self) -> (usize, u64, BookReadings);

    /// Makes a call on the book, and keeps its receipt under channel 0.
    fn record(&mut self, call: ChanCall<Self::Value>) -> Result<ChanReply<Self::Value>, DeskFault>;
}

/// The pass of actor 0, and a book of a channel.
struct Recording<V: Copy> {
    pass: Pass<V>,
    book: Book<Chan<V>>,
}

impl<V: Copy> Records for Recording<V> {
    type Value = V;

    fn shown(&self) -> (usize, u64, BookReadings) {
        (
            self.pass.kept().len(),
            self.pass.stamp(),
            readings_of(&self.book),
        )
    }

    fn record(&mut self, call: ChanCall<V>) -> Result<ChanReply<V>, DeskFault> {
        self.pass.record(&mut self.book, 0, call)
    }
}

/// A book of a channel that is opened from this spec.
pub fn open_book<V: Copy>(spec: &Spec<V>) -> Result<Book<Chan<V>>, NoMemory> {
    Book::open(Global, open_channel(Global, spec)?)
}

/// The same, with retries. The channel is dropped at a refusal.
fn new_book<V: Copy>(spec: &Spec<V>) -> Result<Book<Chan<V>>, NoMemory> {
    if spec.has_bad_capacity() {
        return Err(NoMemory);
    }
    made(|| open_book(spec))
}

/// Returns what is compared of a book.
pub fn readings_of<V: Copy>(book: &Book<Chan<V>>) -> BookReadings {
    (book.len(), counted(book.machine()))
}

/// A pass without receipts, and a new book of a channel.
fn new_recording<V: Copy>(spec: &Spec<V>) -> Result<Recording<V>, NoMemory> {
    let book = new_book(spec)?;
    Ok(Recording {
        pass: Pass::new(Global, 0),
        book,
    })
}

/// Makes a call, with one retry.
fn record<B: Records>(
    both: &mut B,
    call: ChanCall<B::Value>,
) -> Result<ChanReply<B::Value>, DeskFault> {
    let before = both.shown();
    match both.record(call) {
        Err(DeskFault::NoMemory) => {
            refused(both.shown() == before);
            both.record(call)
        }
        answer => answer,
    }
}

/// Makes these calls.
fn record_each<B: Records>(both: &mut B, calls: &[StampedCall<B::Value>]) -> Result<(), NoMemory> {
    for (_, _, call) in calls {
        if let Err(DeskFault::NoMemory) = record(both, *call) {
            return Err(NoMemory);
        }
    }
    Ok(())
}

/// Makes these calls on a new book of a channel, which is dropped, and returns the pass of actor 0 that made them.
pub fn record_all<V: Copy>(spec: &Spec<V>, calls: &[StampedCall<V>]) -> Result<Pass<V>, NoMemory> {
    let mut both = new_recording(spec)?;
    let recorded = record_each(&mut both, calls);
    let Recording { pass, book: _ } = both;
    match recorded {
        Ok(()) => Ok(pass),
        Err(NoMemory) => Err(NoMemory),
    }
}

/// Says what a pass has and how long the book is.
fn say_shown<B: Records>(both: &B) {
    let (receipts, clock, (length, _)) = both.shown();
    say!("  ({receipts}, {clock}), {length} entries")
}

/// Makes a call twenty times, and another one, and says what is answered.
fn say_records<B: Records>(both: &mut B, call: ChanCall<B::Value>, last: ChanCall<B::Value>)
where
    B::Value: Debug,
{
    for _ in 0..20 {
        say!("  {:?}", record(both, call));
    }
    say!("  {:?}", record(both, last));
    say_shown(both)
}

/// Plays a pass on a book: the calls are as many that both have to grow, and the last one would wait.
fn play_pass<V: Copy + Debug>(spec: &Spec<V>, call: ChanCall<V>, last: ChanCall<V>) {
    let Ok(mut both) = new_recording(spec) else {
        return say!("  no book");
    };
    say_records(&mut both, call, last);
}

/// Plays a pass on a book of each of these kinds.
fn play_both<V: Copy + Debug>([broadcast, watch]: &[Spec<V>; 2]) {
    say!("a pass on a broadcast");
    let made = ChanCall::B(BCall::Subscribe(0));
    let waits = ChanCall::B(BCall::Recv(1));
    play_pass(broadcast, made, waits);
    say!("a pass on a watch");
    let made = ChanCall::W(WCall::CloneReceiver(1));
    let waits = ChanCall::W(WCall::Changed(1));
    play_pass(watch, made, waits)
}

/// Plays a pass on a book of each kind.
pub fn play() {
    play_both(&SPECS)
}
