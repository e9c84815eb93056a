//! The hand-off: one book that seats acquire in turn.
// From crates/rw_seat/src/hand_off.rt, with its contracts as comments. //+
use crate::shim::Vec; //+

//~ ghost use Rattle.std.specs.Prelude.{◌≡◌, ◌<◌, ◌≤◌, ◌∷◌, [], Some, map, vec_capacity, IfOk, All};
//~ ghost use Rattle.rw_law.specs.declared.limits.TheConstants.{MOST_ACTORS};
//~ ghost use Rattle.rw_seat.specs.Journals.{IsQuiet};
//~ ghost use Rattle.rw_seat.specs.Rule.{numbers_from, resting};

use crate::source::rw_seat::acquiring::{FREE, TableSeat, acquire, release};
use crate::source::rw_seat::lent::Lent;
use crate::source::rw_seat::rule::{Meet, OneBook, SplitFirst};
use crate::source::rw_seat::view::{Opening, View};
use crate::shim::atomic_table::{Refused, Table};
use crate::source::rw_journal::Keeps;
use crate::source::rw_law::NoMemory;
use crate::shim::alloc::Global;
//~ use std::marker::Model;
use crate::shim::snapshot::Snapshot;
use crate::shim::sync::Wait;
use crate::shim::sync::atomic::AtomicU64;

/// A book that seats acquire in turn, and the number of seats.
//~ #[derive(Drop)]
pub struct HandOff<B: Keeps /*~+ Drop~*/> {
    pub(crate) table: Table<Option<B>, View<B::Entry, B::Start>, Opening<B>, OneBook<B>, Global>,
    pub(crate) seats: u32,
    // How many threads are parked until the book is free, or are about to park.
    pub(crate) sleepers: AtomicU64,
}

//~ impl<B: Keeps + Drop> Model for HandOff<B> {
//~     ghost use Rattle.std.specs.Prelude.{◌≡◌, ◌<◌, ◌≤◌, Some};
//~     ghost use Rattle.rw_law.specs.declared.limits.TheConstants.{MOST_ACTORS};
//~     ghost use Rattle.rw_seat.specs.HandOffs.{HandOff as Seen};
//~
//~     ghost Value = { Seen B.Start };
//~
//~     ghost view = { λ h. record { home = record { table = h.table.shared.table_id; start = Some (B.start h.table.shared.key.book.value) }; seats = h.seats } };
//~
//~     ghost invariant = { λ h. (h.table.shared.table_id.words ≡ 1) × (h.table.shared.table_id.slots ≡ 1)
//~         × (h.table.shared.key.seats ≡ h.seats) × (0 < h.seats) × (h.seats ≤ MOST_ACTORS) };
//~ }

/// A seat of a hand-off. It has a number, and a front: the journal that it has seen.
//~ #[derive(Drop)]
pub struct HandSeat<B: Keeps> {
    pub(crate) number: u32,
    pub(crate) seat: TableSeat<B>,
}

//~ impl<B: Keeps> Model for HandSeat<B> {
//~     ghost use Rattle.rw_seat.specs.HandOffs.{HandSeat as Seen};
//~     ghost use Rattle.rw_seat.specs.Rule.{HasOne};
//~
//~     ghost Value = { Seen B.Entry B.Start };
//~
//~     ghost view = { λ h. record { number = h.number; home = record { table = h.seat.table_id; start = h.seat.me.0.start }; front = h.seat.me.0.front } };
//~
//~     ghost invariant = { λ h. HasOne h.number h.seat.me };
//~ }

impl<B: Keeps> HandSeat<B> {
    pub fn number(&self) -> u32
//~         ensures { result ≡ self.now.number }
    {
        self.number
    }
}

impl<B: Keeps /*~+ Drop~*/> HandOff<B> {
    /// Opens a hand-off of the book. Returns it with the seats 0, 1, .. in order, each of which has seen the book's journal. If
    /// an allocation fails, the book is dropped.
    pub fn open(
        alloc: Global,
        book: B,
        seats: u32,
    ) -> Result<(HandOff<B>, Vec<HandSeat<B>>), NoMemory>
//~         requires { (0 < seats) × (seats ≤ MOST_ACTORS) }
//~         ensures count { IfOk result (λ r. r.0.seats ≡ seats) }
//~         ensures start { IfOk result (λ r. r.0.home.start ≡ Some (B.start book)) }
//~         ensures home { IfOk result (λ r. All (λ s. s.home ≡ r.0.home) r.1.items) }
//~         ensures seats { IfOk result (λ r. r.1.items ≡ map (λ n. record { number = n; home = r.0.home; front = B.journal book }) (numbers_from 0 seats)) }
    {
        let mut hand_seats = Vec::with_capacity(alloc, seats as usize)?;
        let mut slots = Vec::with_capacity(alloc, 1)?;
        let key = Opening {
            book: Snapshot::of(&book),
            seats,
        };
        slots.push_reserved(Some(book));
        match Table::new(alloc, &[FREE], slots, &key) {
            Ok((table, seat)) => {
                let all = HandOff {
                    table,
                    seats,
                    sleepers: AtomicU64::new(0),
                };
                all.split(seat, &mut hand_seats);
                Ok((all, hand_seats))
            }
            Err(Refused { slots: _ }) => Err(NoMemory),
        }
    }

    /// Splits a seat of all numbers into seats of one number each.
    fn split(&self, seat: TableSeat<B>, hand_seats: &mut Vec<HandSeat<B>>)
//~         requires of_table { seat.table_id ≡ self.now.home.table }
//~         requires room { (hand_seats.old.items ≡ []) × (self.now.seats ≤ vec_capacity hand_seats.old) }
//~         requires all { seat.me ≡ (resting (numbers_from 0 self.now.seats) self.now.home.start seat.me.0.front, []) }
//~         ensures split { hand_seats.new.items ≡ map (λ n. record { number = n; home = self.now.home; front = seat.me.0.front }) (numbers_from 0 self.now.seats) }
//~         ensures home { All (λ s. s.home ≡ self.now.home) hand_seats.new.items }
    {
        let mut rest = seat;
        for number in 0..self.seats - 1 {
            let others = self.table.shared.split_seat::<SplitFirst>(&mut rest);
            hand_seats.push_reserved(HandSeat { number, seat: rest });
            rest = others;
        }
        hand_seats.push_reserved(HandSeat {
            number: self.seats - 1,
            seat: rest,
        });
    }

    /// Acquires the book, and blocks while another seat has it. The book's journal begins with all that the seat has seen, and
    /// goes on with no entry by the seat.
    #[inline(always)] //+
    pub fn take<R: Wait>(&self, rt: &R, seat: HandSeat<B>) -> Lent<'_, B>
//~         requires { seat.home ≡ self.now.home }
//~         ensures number { result.number ≡ seat.number }
//~         ensures from { result.from.now ≡ self.now }
//~         ensures noted { result.seat.me.0.front ≡ B.journal result.book }
//~         ensures start { Some (B.start result.book) ≡ self.now.home.start }
//~         ensures book { IsQuiet B.author (seat.number ∷ []) seat.front (B.journal result.book) }
    {
        let HandSeat { number, mut seat } = seat;
        let book = acquire(&self.table.shared, &self.sleepers, rt, &mut seat);
        Lent {
            from: self,
            number,
            seat,
            book,
        }
    }

    /// Acquires the book once for both seats, and releases it. Both have then seen its journal. It begins with what each had
    /// seen, and goes on with no entry by that seat. Blocks while another seat has the book.
    pub fn meet<R: Wait>(
        &self,
        rt: &R,
        one: HandSeat<B>,
        two: HandSeat<B>,
    ) -> (HandSeat<B>, HandSeat<B>)
//~         requires one { one.home ≡ self.now.home }
//~         requires two { two.home ≡ self.now.home }
//~         ensures numbers { (result.0.number ≡ one.number) × (result.1.number ≡ two.number) }
//~         ensures home { (result.0.home ≡ self.now.home) × (result.1.home ≡ self.now.home) }
//~         ensures same { result.0.front ≡ result.1.front }
//~         ensures one { IsQuiet B.author (one.number ∷ []) one.front result.0.front }
//~         ensures two { IsQuiet B.author (two.number ∷ []) two.front result.1.front }
    {
        let HandSeat {
            number: first,
            mut seat,
        } = one;
        let HandSeat {
            number: second,
            seat: other,
        } = two;
        let table = &self.table.shared;
        table.join_seat::<Meet>(&mut seat, other);
        let book = acquire(table, &self.sleepers, rt, &mut seat);
        release(table, &self.sleepers, &mut seat, book);
        let other = table.split_seat::<SplitFirst>(&mut seat);
        let one = HandSeat {
            number: first,
            seat,
        };
        let two = HandSeat {
            number: second,
            seat: other,
        };
        (one, two)
    }
}
