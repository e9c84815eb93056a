//! The rule of the table under a hand-off, and the effects of its steps. `specs/Rule.antt` states both.
// From crates/rw_seat/src/rule.rt, with its contracts as comments. //+

//~ ghost use Rattle.std.specs.Prelude.{Some};
//~ ghost use Rattle.rw_seat.specs.Rule.{HasOneBook, Acquires, Releases, resting, numbers_from, first_part, other_part, joined_view, spent_view};

use crate::source::rw_seat::view::{Opening, View};
use crate::shim::atomic_table::{Join, Play, Split, TableRule};
use crate::source::rw_journal::Keeps;
use crate::shim::marker::PhantomData;

/// The rule: one book, which seats acquire in turn.
pub struct OneBook<B> {
    marker: PhantomData<B>,
}

impl<B: Keeps> TableRule<Option<B>, View<B::Entry, B::Start>, Opening<B>> for OneBook<B> {
//~     ghost holds = { λ key. HasOneBook B.author B.start B.journal (B.start key.book.value) key.seats };

//~     ghost first = { λ key. resting (numbers_from 0 key.seats) (Some (B.start key.book.value)) (B.journal key.book.value) };
}

/// An acquire, which succeeds or fails.
pub struct Acquire<B> {
    marker: PhantomData<B>,
}

impl<B: Keeps> Play<Option<B>, View<B::Entry, B::Start>> for Acquire<B> {
//~     ghost then = { Acquires B.author B.start B.journal };
}

/// A release.
pub struct Release<B> {
    marker: PhantomData<B>,
}

impl<B: Keeps> Play<Option<B>, View<B::Entry, B::Start>> for Release<B> {
//~     ghost then = { Releases B.author B.start B.journal };
}

/// A split: the first number stays, and the others go to the new seat.
pub struct SplitFirst;

impl<E, S> Split<View<E, S>> for SplitFirst {
//~     ghost left = { first_part };

//~     ghost right = { other_part };
}

/// A join of two seats.
pub struct Meet;

impl<E, S> Join<View<E, S>> for Meet {
//~     ghost both = { joined_view };

//~     ghost spent = { spent_view };
}
