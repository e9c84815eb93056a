//! A journal of a channel that settles with a pass, and some that don't.

use crate::journals::by_channel::settled;
use proved::Global;
use proved::rw_broadcast::BCall;
use proved::rw_desk::{CloseFault, DeskFault, Pass, compare};
use proved::rw_journal::Book;
use proved::rw_law::Payload;
use proved::rw_world::{Chan, ChanCall, Spec, open_channel};
use support::desks::StampedCall;

/// What is called, by actor 0.
static CALLS: [StampedCall<u64>; 3] = [
    (0, 1, ChanCall::B(BCall::Send(0, 4))),
    (0, 2, ChanCall::B(BCall::TryRecv(1))),
    (0, 3, ChanCall::B(BCall::TryRecv(1))),
];

/// Calls by actor 5, with the same stamp.
static TWICE: [StampedCall<u64>; 2] = [
    (5, 2, ChanCall::B(BCall::TryRecv(1))),
    (5, 2, ChanCall::B(BCall::TryRecv(1))),
];

/// How many of the calls settle, and how long their run is and where the receipts differ, or why they don't settle.
static FRONTS: [(usize, Result<(u64, Option<u64>), CloseFault>); 3] = [
    (3, Ok((3, None))),
    (0, Err(CloseFault::Strayed(0, 0))),
    (2, Err(CloseFault::Strayed(0, 2))),
];

/// Records calls by a pass.
fn record_all<V: Payload>(
    book: &mut Book<Chan<V>>,
    pass: &mut Pass<V>,
    steps: &[StampedCall<V>],
) -> Result<(), DeskFault> {
    for (_, _, call) in steps {
        pass.record(book, 0, *call)?;
    }
    Ok(())
}

/// The pass of actor 0 that made the calls.
fn pass_of<V: Payload>(steps: &[StampedCall<V>]) -> Pass<V> {
    let mut book = Book::open(Global, open_channel(Global, &Spec::Broadcast(2)).unwrap()).unwrap();
    let mut pass = Pass::new(Global, 0);
    record_all(&mut book, &mut pass, steps).unwrap();
    pass
}

/// How long the run is to which the journal of a channel and the pass of actor 0 settle, and where its receipts differ.
fn settle_row<V: Payload>(
    specs: &[Spec<V>],
    steps: &[StampedCall<V>],
    passes: &[Pass<V>],
) -> Result<(u64, Option<u64>), CloseFault> {
    let run = settled(specs, &[steps], passes).unwrap()?;
    let found = match passes.first() {
        Some(pass) => (run.len(), compare(&run, 0, pass.kept())),
        None => (run.len(), Some(0)),
    };
    Ok(found)
}

/// The same of a broadcast of numbers of capacity 2.
fn settle_numbers(
    steps: &[StampedCall<u64>],
    passes: &[Pass<u64>; 1],
) -> Result<(u64, Option<u64>), CloseFault> {
    settle_row(&[Spec::Broadcast(2)], steps, passes)
}

/// The calls settle with the pass that made them, and fewer and other ones don't.
fn settles_with(passes: &[Pass<u64>; 1]) {
    for (count, answer) in &FRONTS {
        let settled = settle_numbers(&CALLS[..(*count).min(3)], passes);
        assert_eq!((*count, settled), (*count, *answer));
    }
    let settled = settle_numbers(&TWICE, passes);
    assert_eq!(settled, Err(CloseFault::Strayed(5, 1)));
}

#[test]
fn settles() {
    let passes = [pass_of(&CALLS)];
    settles_with(&passes);
}
