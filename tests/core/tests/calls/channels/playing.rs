//! How a row is played: its calls are made and undone one by one, and then recorded in a book, whose journal a navigator walks
//! back and forward again.

use proved::Global;
use proved::rw_journal::{Book, TakeFault};
use proved::rw_law::Reversible;
use proved::rw_navigator::{Move, Navigator};
use std::fmt::Debug;
use support::fixtures::Shows;

/// A call, its reply, and what is shown after it, if the row has that.
pub type Expected<C, R, P> = (C, R, Option<P>);

/// Makes the calls in order, and then undoes them, the last one first.
fn make_and_undo<M: Reversible + Shows>(
    machine: &mut M,
    steps: &[Expected<M::Call, M::Reply, M::Place>],
) where
    M::Reply: PartialEq + Debug,
{
    if let [first, rest @ ..] = steps {
        let (call, wanted, place) = first;
        let (reply, patch) = machine.apply(call);
        assert_eq!(reply, *wanted);
        is_at(machine, place);
        make_and_undo(machine, rest);
        is_at(machine, place);
        machine.undo(call, &patch);
    }
}

/// Makes the calls of a row in order and undoes them, if it is a short one: this takes a call of `make_and_undo` for each.
fn make_short<M: Reversible + Shows>(
    machine: &mut M,
    steps: &[Expected<M::Call, M::Reply, M::Place>],
) where
    M::Reply: PartialEq + Debug,
{
    if steps.len() < 100 {
        machine.ready(steps.len() as u64).unwrap();
        make_and_undo(machine, steps);
    }
}

/// Records the calls of a row by actor 0, and compares the replies. A call that would wait isn't recorded.
fn record<M: Reversible + Shows>(
    book: &mut Book<M>,
    steps: &[Expected<M::Call, M::Reply, M::Place>],
) where
    M::Reply: PartialEq + Debug,
{
    for step in steps {
        take(book, step);
    }
}

/// Records the call of a step, and compares the replies. A call that would wait isn't recorded.
fn take<M: Reversible + Shows>(book: &mut Book<M>, step: &Expected<M::Call, M::Reply, M::Place>)
where
    M::Reply: PartialEq + Debug,
{
    let (call, reply, _) = step;
    let taken = match book.take(0, 0, *call) {
        Ok(receipt) => Some(receipt.reply),
        Err(TakeFault::Waits) => None,
        Err(_) => panic!("no memory"),
    };
    let wanted = if M::waits(reply) { None } else { Some(*reply) };
    assert_eq!(taken, wanted);
}

/// Plays and records a row on one machine, and walks it back and forward again on another in the same state. The calls of a long
/// row are only recorded.
pub fn play<M: Reversible + Shows>(
    mut recorded: M,
    walked: M,
    steps: &[Expected<M::Call, M::Reply, M::Place>],
) where
    M::Reply: PartialEq + Debug,
{
    let opening = walked.place();
    make_short(&mut recorded, steps);
    assert_eq!(recorded.place(), opening);
    let mut book = Book::open(Global, recorded).unwrap();
    record(&mut book, steps);
    let mut navigator = opened(walked, book);
    walk(&mut navigator, opening, steps);
}

/// Opens a navigator over the journal of a book.
fn opened<M: Reversible>(walked: M, book: Book<M>) -> Navigator<M> {
    let opened = Navigator::open(Global, walked, book.entries());
    opened.unwrap()
}

/// Walks from the opening to the end, back, and forward again.
fn walk<M: Reversible + Shows>(
    navigator: &mut Navigator<M>,
    opening: M::Place,
    steps: &[Expected<M::Call, M::Reply, M::Place>],
) {
    assert_eq!(navigator.step(Move::End), Ok(()));
    walk_back(navigator, steps);
    assert_eq!((navigator.place(), navigator.state().place()), (0, opening));
    walk_on(navigator, steps);
    let len = navigator.len();
    assert_eq!((navigator.place(), navigator.turns() / 3), (len, len));
}

/// Walks back over each recorded step, from its place.
fn walk_back<M: Reversible + Shows>(
    navigator: &mut Navigator<M>,
    steps: &[Expected<M::Call, M::Reply, M::Place>],
) {
    for (_, reply, place) in steps.iter().rev() {
        if !M::waits(reply) {
            is_at(navigator.state(), place);
            assert_eq!(navigator.step(Move::Back(1)), Ok(()));
        }
    }
}

/// Walks forward over each recorded step, to its place.
fn walk_on<M: Reversible + Shows>(
    navigator: &mut Navigator<M>,
    steps: &[Expected<M::Call, M::Reply, M::Place>],
) {
    for (_, reply, place) in steps {
        if !M::waits(reply) {
            assert_eq!(navigator.step(Move::Forward(1)), Ok(()));
            is_at(navigator.state(), place);
        }
    }
}

/// Asserts that the machine shows what the row has for a place.
fn is_at<M: Shows>(machine: &M, place: &Option<M::Place>) {
    if let Some(place) = place {
        assert_eq!(machine.place(), *place);
    }
}
