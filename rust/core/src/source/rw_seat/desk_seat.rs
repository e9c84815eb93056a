//! An actor's seat at a desk.
// From crates/rw_seat/src/desk_seat.rt, with its contracts as comments. //+
use crate::shim::{Vec, VecExt}; //+

//~ ghost use Rattle.std.specs.Prelude.{◌≡◌, ◌<◌, ◌≤◌, [], length, get_or, vec_len, vec_capacity, OnOk};
//~ ghost use Rattle.std.specs.List.{insert, remove};
//~ ghost use Rattle.rw_law.specs.declared.limits.TheConstants.{MOST_ACTORS};
//~ ghost use Rattle.rw_desk.specs.Passes.{IsPass, fresh_pass};
//~ ghost use Rattle.rw_seat.specs.DeskSeats.{IsDeskSeat, with_hand_seat};

use crate::source::rw_seat::boxed_ledger::BoxedLedger;
use crate::source::rw_seat::hand_off::HandSeat;
use crate::source::rw_desk::{HasPass, Kept, Pass};
use crate::source::rw_law::{NoMemory, Payload};
use crate::shim::alloc::Global;
//~ use std::marker::Model;

/// A seat of a channel's hand-off.
pub(crate) type ChannelSeat<V> = HandSeat<BoxedLedger<V>>;

/// An actor's seat at a desk: its clock and receipts, and what it has seen of each channel.
//~ #[derive(Drop)]
pub struct DeskSeat<V: Payload> {
    pass: Pass<V>,
    hand_seats: Vec<ChannelSeat<V>>,
}

//~ impl<V: Payload> Model for DeskSeat<V> {
//~     ghost use Rattle.rw_seat.specs.DeskSeats.{DeskSeat as Seen, IsDeskSeat};
//~
//~     ghost Value = { Seen V };
//~
//~     ghost view = { λ s. record { pass = s.pass; hand_seats = s.hand_seats.items } };
//~
//~     ghost invariant = { λ s. IsDeskSeat s.pass s.hand_seats.items };
//~ }

impl<V: Payload> DeskSeat<V> {
    /// Makes an actor's seat, without `HandSeat`s.
    pub(crate) fn new(alloc: Global, actor: u32) -> DeskSeat<V>
//~         requires { actor < MOST_ACTORS }
//~         ensures { result ≡ record { pass = fresh_pass actor; hand_seats = [] } }
    {
        DeskSeat {
            pass: Pass::new(alloc, actor),
            hand_seats: Vec::new(alloc),
        }
    }

    /// Returns the actor's number.
    pub fn actor(&self) -> u32
//~         ensures actor { result ≡ self.now.pass.actor }
//~         ensures known { result < MOST_ACTORS }
    {
        self.pass.actor()
    }

    /// Returns the stamp of its last call.
    pub fn stamp(&self) -> u64
//~         ensures { result ≡ self.now.pass.clock }
    {
        self.pass.stamp()
    }

    /// Returns the receipts of its calls, in order.
    pub fn kept(&self) -> &[Kept<V>]
//~         ensures kept { result.now ≡ self.now.pass.kept }
//~         ensures pass { IsPass self.now.pass.actor self.now.pass.clock result.now }
//~         ensures seat { IsDeskSeat self.now.pass self.now.hand_seats }
    {
        self.pass.kept()
    }

    /// Adds a `HandSeat` to a seat that has made no call. The `HandSeat` has seen nothing.
    pub(crate) fn add(&mut self, hand_seat: ChannelSeat<V>) -> Result<(), NoMemory>
//~         requires pass { self.old.pass ≡ fresh_pass hand_seat.number }
//~         requires front { hand_seat.front ≡ [] }
//~         ensures { OnOk result (self.new ≡ with_hand_seat self.old hand_seat) }
    {
        self.hand_seats.push(hand_seat)?;
        Ok(())
    }

    /// Splits the seat into its pass, its other `HandSeat`s, and its `HandSeat` at a channel.
    #[inline(always)] //+
    pub(crate) fn reach(self, at: usize) -> (Pass<V>, Vec<ChannelSeat<V>>, ChannelSeat<V>)
//~         requires { at < length self.hand_seats }
//~         ensures pass { result.0 ≡ self.pass }
//~         ensures others { result.1.items ≡ remove self.hand_seats at }
//~         ensures within { at ≤ vec_len result.1 }
//~         ensures room { vec_len result.1 < vec_capacity result.1 }
//~         ensures hand_seat { result.2 ≡ get_or self.hand_seats at result.2 }
//~         ensures seat { IsDeskSeat self.pass self.hand_seats }
    {
        let DeskSeat {
            pass,
            mut hand_seats,
        } = self;
        let hand_seat = hand_seats.remove(at);
        (pass, hand_seats, hand_seat)
    }

    /// Puts together what `reach` has split.
    #[inline(always)] //+
    pub(crate) fn whole(
        pass: Pass<V>,
        mut hand_seats: Vec<ChannelSeat<V>>,
        at: usize,
        hand_seat: ChannelSeat<V>,
    ) -> DeskSeat<V>
//~         requires within { at ≤ vec_len hand_seats }
//~         requires room { vec_len hand_seats < vec_capacity hand_seats }
//~         requires seat { IsDeskSeat pass (insert hand_seats.items at hand_seat) }
//~         ensures { result ≡ record { pass = pass; hand_seats = insert hand_seats.items at hand_seat } }
    {
        hand_seats.insert(at, hand_seat).unwrap();
        DeskSeat { pass, hand_seats }
    }
}

impl<V: Payload> HasPass<V> for DeskSeat<V> {
//~     ghost pass_of = { λ seat. seat.pass };

    fn actor(&self) -> u32 {
        DeskSeat::actor(self)
    }

    fn kept(&self) -> &[Kept<V>] {
        DeskSeat::kept(self)
    }
}
