//! Passes on books of one channel.

use proved::Global;
use proved::rw_broadcast::{BCall, BReply};
use proved::rw_desk::{DeskFault, Kept, Pass};
use proved::rw_journal::Book;
use proved::rw_law::Entry;
use proved::rw_watch::{WCall, WReply};
use proved::rw_world::{Chan, ChanCall, ChanReply, Spec, open_channel};

/// A book of a channel that is opened from this spec.
fn book_of(spec: &Spec<u64>) -> Book<Chan<u64>> {
    Book::open(Global, open_channel(Global, spec).unwrap()).unwrap()
}

/// The entries of a book.
fn entries_of(book: &Book<Chan<u64>>) -> &[Entry<Chan<u64>>] {
    book.entries()
}

/// A pass of an actor.
fn pass_of(actor: u32) -> Pass<u64> {
    Pass::new(Global, actor)
}

/// The actor of a pass.
fn actor_of(pass: &Pass<u64>) -> u32 {
    pass.actor()
}

/// The stamp of a pass, and how many receipts it and how many entries the book has.
fn counts(book: &Book<Chan<u64>>, pass: &Pass<u64>) -> [u64; 3] {
    [pass.stamp(), pass.kept().len() as u64, book.len()]
}

/// Records a call by a pass.
fn record(
    book: &mut Book<Chan<u64>>,
    pass: &mut Pass<u64>,
    channel: u32,
    call: ChanCall<u64>,
) -> Result<ChanReply<u64>, DeskFault> {
    pass.record(book, channel, call)
}

/// A value is sent and received; a call strays, and one would wait. The book and the pass have the two that are recorded.
fn records(book: &mut Book<Chan<u64>>, pass: &mut Pass<u64>) {
    let answers = [
        record(book, pass, 7, ChanCall::B(BCall::Send(0, 4))),
        record(book, pass, 7, ChanCall::B(BCall::TryRecv(1))),
        record(book, pass, 7, ChanCall::W(WCall::Borrow(1))),
        record(book, pass, 7, ChanCall::B(BCall::Recv(1))),
    ];
    let wanted = [
        Ok(ChanReply::B(BReply::Sent(1))),
        Ok(ChanReply::B(BReply::Value(4))),
        Err(DeskFault::NoChannel),
        Err(DeskFault::Waits),
    ];
    assert_eq!(answers, wanted);
    assert_eq!(u64::from(actor_of(pass)), 5);
    assert_eq!(counts(book, pass), [2, 2, 2]);
}

/// The actor, the channel and the stamp of the receipt of a number, if it is that of the entry there.
fn receipt_at(
    entries: &[Entry<Chan<u64>>],
    kept: &[Kept<u64>],
    at: usize,
) -> Option<(u32, u32, u64)> {
    let (entry, kept) = (entries.get(at)?, kept.get(at)?);
    let is_its = (kept.call, kept.reply, kept.stamp) == (entry.call, entry.reply, entry.stamp);
    is_its.then_some((entry.actor, kept.channel, kept.stamp))
}

#[test]
fn a_pass_keeps_what_it_recorded() {
    let mut book = book_of(&Spec::Broadcast(2));
    let mut pass = pass_of(5);
    records(&mut book, &mut pass);
    let found = [
        receipt_at(entries_of(&book), pass.kept(), 0),
        receipt_at(entries_of(&book), pass.kept(), 1),
    ];
    assert_eq!(found, [Some((5, 7, 1)), Some((5, 7, 2))]);
}

/// A pass that has heeded a stamp after which there is none records no call, and keeps its clock.
fn records_nothing(book: &mut Book<Chan<u64>>, pass: &mut Pass<u64>, heeded: u64) {
    pass.heed(heeded);
    let clock = pass.stamp();
    // A stray call isn't one for a full journal.
    let answers = [
        record(book, pass, 0, ChanCall::B(BCall::ReceiverCount(0))),
        record(book, pass, 0, ChanCall::W(WCall::Borrow(1))),
    ];
    let faults = [Err(DeskFault::JournalFull), Err(DeskFault::NoChannel)];
    assert_eq!(answers, faults);
    assert_eq!(counts(book, pass), [clock, 1, 1]);
}

/// The last stamp is given, and then none, whatever is heeded.
fn ends_its_clock(book: &mut Book<Chan<u64>>, pass: &mut Pass<u64>) {
    pass.heed((1 << 62) - 1);
    pass.heed(3);
    assert_eq!(pass.stamp(), (1 << 62) - 1);
    let counted = record(book, pass, 0, ChanCall::B(BCall::ReceiverCount(0)));
    let wanted = Ok(ChanReply::B(BReply::Count(1)));
    assert_eq!(counted, wanted);
    for heeded in [0, 1 << 62, u64::MAX] {
        records_nothing(book, pass, heeded);
    }
    assert_eq!(pass.stamp(), u64::MAX);
}

#[test]
fn the_clock_ends_at_two_to_the_62() {
    let mut book = book_of(&Spec::Broadcast(2));
    let mut pass = pass_of(0);
    ends_its_clock(&mut book, &mut pass);
}

#[test]
fn a_refused_call_is_recorded() {
    let mut book = book_of(&Spec::Watch(7));
    let mut pass = pass_of(63);
    let answer = record(&mut book, &mut pass, 0, ChanCall::W(WCall::Borrow(9)));
    let last = pass.stamp();
    let unknown = Ok(ChanReply::W(WReply::Unknown));
    assert_eq!(answer, unknown);
    assert_eq!(last, 1);
}
