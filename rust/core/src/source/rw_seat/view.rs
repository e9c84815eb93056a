//! What the rule of a hand-off knows of a seat. No `View` is ever made.
// From crates/rw_seat/src/view.rt, with its contracts as comments. //+

use crate::shim::collections::LinkedList;
use crate::shim::snapshot::Snapshot;

/// A front from before a join, with the numbers that its seat had then.
pub struct Old<E> {
    pub numbers: LinkedList<u32>,
    pub front: LinkedList<E>,
}

/// What a seat knows: its numbers, what the journal starts from, the front that it has seen, whether it has the book, and the
/// fronts that were joined since it last had the book.
pub struct View<E, S> {
    pub numbers: LinkedList<u32>,
    pub start: Option<S>,
    pub front: LinkedList<E>,
    pub held: bool,
    pub olds: LinkedList<Old<E>>,
}

/// What the table was made with: the book, as a snapshot without bytes, and the number of seats.
//~ #[derive(Drop)]
pub struct Opening<B> {
    pub book: Snapshot<B>,
    pub seats: u32,
}
