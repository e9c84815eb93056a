//! Desks with seats: each channel's book has a hand-off. A call returns how much its caller has seen.
// From crates/rw_seat/src/seat_desk.rt, with its contracts as comments. //+
use crate::shim::Vec; //+

//~ ghost use Rattle.std.specs.Prelude.{◌≡◌, ◌↔◌, ◌≤◌, false, Some, length, map, slice_get, IfNone, IfSome, IsNone, IsTrue};
//~ ghost use Rattle.rw_world.specs.Channel.{strays_at};
//~ ghost use Rattle.rw_world.specs.declared.opening.Spec.{Spec as Specs};
//~ ghost use Rattle.rw_world.specs.Openings.{spec_kind, opened_channel};
//~ ghost use Rattle.rw_world.specs.Shapes.{stray_of};
//~ ghost use Rattle.rw_desk.specs.Desks.{row_call};
//~ ghost use Rattle.rw_seat.specs.Journals.{StartsWith};
//~ ghost use Rattle.rw_seat.specs.DeskSeats.{HasSeen, IsElsewhereAsBefore, front_at};
//~ ghost use Rattle.rw_seat.specs.SeatDesks.{IsAnswered, IsSeatOf, opening_at};

use crate::source::rw_seat::answered::Answered;
use crate::source::rw_seat::boxed_ledger::BoxedLedger;
use crate::source::rw_seat::calling::{call_by_seat, length_by_seat};
use crate::source::rw_seat::desk_seat::DeskSeat;
use crate::source::rw_seat::hand_off::HandOff;
use crate::source::rw_desk::DeskFault;
use crate::source::rw_law::Payload;
use crate::source::rw_world::{ChanCall, Spec};
//~ use std::marker::Model;
use crate::shim::sync::Wait;

/// Channels that threads share by reference, each with a hand-off of its book, and the number of actors.
///
/// The calls of a book are stored in a ledger, without replies and patches. Callers see it as the book of these calls.
//~ #[derive(Drop)]
pub struct SeatDesk<V: Payload> {
    pub(crate) specs: Vec<Spec<V>>,
    pub(crate) actors: u32,
    pub(crate) hand_offs: Vec<HandOff<BoxedLedger<V>>>,
}

//~ impl<V: Payload> Model for SeatDesk<V> {
//~     ghost use Rattle.std.specs.Prelude.{map};
//~     ghost use Rattle.rw_seat.specs.SeatDesks.{IsSeatDesk, SeatDesk as Seen};
//~
//~     ghost Value = { Seen V };
//~
//~     ghost view = { λ d. record { specs = d.specs.items; actors = d.actors; homes = map (λ h. h.home) d.hand_offs.items } };
//~
//~     ghost invariant = { λ d. IsSeatDesk d.specs.items d.actors d.hand_offs.items };
//~ }

impl<V: Payload> SeatDesk<V> {
    /// Makes a call. It blocks until it has acquired the channel's book, but never for a value.
    #[inline(always)] //+
    pub fn call<R: Wait>(
        &self,
        rt: &R,
        seat: DeskSeat<V>,
        channel: u32,
        call: ChanCall<V>,
    ) -> (DeskSeat<V>, Result<Answered<V>, DeskFault>)
//~         requires { IsSeatOf self.now seat }
//~         ensures seat { IsSeatOf self.now result.0 }
//~         ensures answered { IsAnswered self.now.specs seat result.0 channel call result.1 }
    {
        let Some(hand_off) = self.hand_off(channel, &call) else {
            return (seat, Err(DeskFault::NoChannel));
        };
        let at = channel as usize;
        let (mut pass, hand_seats, hand_seat) = seat.reach(at);
        let (hand_seat, answer) = call_by_seat(rt, hand_off, hand_seat, &mut pass, channel, call);
        (DeskSeat::whole(pass, hand_seats, at, hand_seat), answer)
    }

    /// Lets two seats meet on a channel: the first has then seen all that the second has seen of it. Returns the length of what
    /// the first has seen, or `None` if there is no such channel.
    pub fn meet<R: Wait>(
        &self,
        rt: &R,
        one: DeskSeat<V>,
        two: DeskSeat<V>,
        channel: u32,
    ) -> (DeskSeat<V>, DeskSeat<V>, Option<u64>)
//~         requires one { IsSeatOf self.now one }
//~         requires two { IsSeatOf self.now two }
//~         ensures seats { IsSeatOf self.now result.0 × IsSeatOf self.now result.1 }
//~         ensures seen { HasSeen one result.0 × HasSeen two result.1 }
//~         ensures elsewhere { IsElsewhereAsBefore channel one result.0 × IsElsewhereAsBefore channel two result.1 }
//~         ensures none { IsNone result.2 ↔ length self.now.specs ≤ channel }
//~         ensures nothing { IfNone result.2 ((result.0 ≡ one) × (result.1 ≡ two)) }
//~         ensures met { IfSome result.2 (λ n. (n ≡ length (front_at result.0.hand_seats channel))
//~             × StartsWith (front_at result.0.hand_seats channel) (front_at result.1.hand_seats channel)) }
    {
        let at = channel as usize;
        let Some(hand_off) = self.hand_off_at(at) else {
            return (one, two, None);
        };
        let (first, ours, one) = one.reach(at);
        let (second, theirs, two) = two.reach(at);
        let (one, two) = hand_off.meet(rt, one, two);
        let (one, length) = length_by_seat(rt, hand_off, one);
        (
            DeskSeat::whole(first, ours, at, one),
            DeskSeat::whole(second, theirs, at, two),
            Some(length),
        )
    }

    /// Returns the hand-off of a call's channel, or `None` if the call strays.
    #[inline(always)] //+
    fn hand_off(&self, channel: u32, call: &ChanCall<V>) -> Option<&HandOff<BoxedLedger<V>>>
//~         ensures none { IsNone result ↔ IsTrue (stray_of strays_at (map spec_kind self.now.specs) (row_call channel call.now)) }
//~         ensures home { IfSome result (λ h. slice_get self.now.homes channel ≡ Some h.now.home) }
//~         ensures spec { IfSome result (λ h. (spec : Specs V) × (slice_get self.now.specs channel ≡ Some spec)
//~             × (opening_at h.now.home ≡ Some (opened_channel spec)) × (strays_at (spec_kind spec) call.now ≡ false)) }
    {
        let at = channel as usize;
        if self.specs.get(at)?.is_of_other_kind(call) {
            return None;
        }
        self.hand_off_at(at)
    }

    /// Returns the hand-off of a channel, or `None` if there is no such channel.
    #[inline(always)] //+
    pub(crate) fn hand_off_at(&self, at: usize) -> Option<&HandOff<BoxedLedger<V>>>
//~         ensures none { IsNone result ↔ length self.now.specs ≤ at }
//~         ensures home { IfSome result (λ h. slice_get self.now.homes at ≡ Some h.now.home) }
//~         ensures spec { IfSome result (λ h. (spec : Specs V) × (slice_get self.now.specs at ≡ Some spec)
//~             × (opening_at h.now.home ≡ Some (opened_channel spec))) }
    {
        if at >= self.specs.len() {
            return None;
        }
        Some(&self.hand_offs[at])
    }
}
