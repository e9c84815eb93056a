//! What a `HandSeat` does with the ledger of its channel: make a call, read the length of its journal, or copy the journal.
// From crates/rw_seat/src/calling.rt, with its contracts as comments. //+
use crate::shim::Vec; //+

//~ ghost use Rattle.std.specs.Prelude.{◌≡◌, ◌∷◌, [], Some, false, length, IfErr, IfOk};
//~ ghost use Rattle.rw_world.specs.Machines.{of_chan};
//~ ghost use Rattle.rw_world.specs.Openings.{has_bad_capacity, opened_channel};
//~ ghost use Rattle.rw_journal.specs.Book.{IsBook};
//~ ghost use Rattle.rw_seat.specs.Calls.{IsMade, IsNotMade, OfOpening};
//~ ghost use Rattle.rw_seat.specs.Journals.{IsQuiet};
//~ ghost use Rattle.rw_seat.specs.SeatDesks.{opening_at};

use crate::source::rw_seat::answered::Answered;
use crate::source::rw_seat::boxed_ledger::BoxedLedger;
use crate::source::rw_seat::desk_seat::ChannelSeat;
use crate::source::rw_seat::hand_off::HandOff;
use crate::source::rw_desk::{DeskFault, Pass};
use crate::source::rw_law::{Entry, NoMemory, Payload};
use crate::source::rw_world::{Chan, ChanCall, Spec};
use crate::shim::alloc::Global;
use crate::shim::sync::Wait;

/// Acquires the channel's ledger, makes a call, and releases the ledger.
#[inline(always)] //+
pub(crate) fn call_by_seat<V: Payload, R: Wait>(
    rt: &R,
    hand_off: &HandOff<BoxedLedger<V>>,
    hand_seat: ChannelSeat<V>,
    pass: &mut Pass<V>,
    channel: u32,
    call: ChanCall<V>,
) -> (ChannelSeat<V>, Result<Answered<V>, DeskFault>)
//~     requires home { hand_seat.home ≡ hand_off.now.home }
//~     requires number { hand_seat.number ≡ pass.old.actor }
//~     ensures number { result.0.number ≡ hand_seat.number }
//~     ensures home { result.0.home ≡ hand_off.now.home }
//~     ensures book { OfOpening hand_off.now.home (λ x. IsBook of_chan x result.0.front) }
//~     ensures made { IfOk result.1 (IsMade pass.old pass.new hand_seat.front result.0.front channel call) }
//~     ensures refused { IfErr result.1 (IsNotMade hand_off.now.home pass.old pass.new hand_seat.front result.0.front call) }
{
    let mut lent = hand_off.take(rt, hand_seat);
    let answer = lent.book().record(pass, channel, call);
    (lent.give(), answer)
}

/// Acquires the ledger, reads the length of its journal, and releases the ledger.
pub(crate) fn length_by_seat<V: Payload, R: Wait>(
    rt: &R,
    hand_off: &HandOff<BoxedLedger<V>>,
    hand_seat: ChannelSeat<V>,
) -> (ChannelSeat<V>, u64)
//~     requires home { hand_seat.home ≡ hand_off.now.home }
//~     ensures number { result.0.number ≡ hand_seat.number }
//~     ensures home { result.0.home ≡ hand_off.now.home }
//~     ensures front { IsQuiet (λ entry. entry.actor) (hand_seat.number ∷ []) hand_seat.front result.0.front }
//~     ensures book { OfOpening hand_off.now.home (λ x. IsBook of_chan x result.0.front) }
//~     ensures length { result.1 ≡ length result.0.front }
{
    let lent = hand_off.take(rt, hand_seat);
    lent.book.book_law();
    let length = lent.book.len();
    (lent.give(), length)
}

/// Acquires the ledger, copies its journal, and releases the ledger. The channel was opened from this spec.
pub(crate) fn copy_by_seat<V: Payload, R: Wait>(
    rt: &R,
    alloc: Global,
    spec: &Spec<V>,
    hand_off: &HandOff<BoxedLedger<V>>,
    hand_seat: ChannelSeat<V>,
) -> (ChannelSeat<V>, Result<Vec<Entry<Chan<V>>>, NoMemory>)
//~     requires home { hand_seat.home ≡ hand_off.now.home }
//~     requires good { has_bad_capacity spec.now ≡ false }
//~     requires opened { opening_at hand_off.now.home ≡ Some (opened_channel spec.now) }
//~     ensures number { result.0.number ≡ hand_seat.number }
//~     ensures home { result.0.home ≡ hand_off.now.home }
//~     ensures front { IsQuiet (λ entry. entry.actor) (hand_seat.number ∷ []) hand_seat.front result.0.front }
//~     ensures book { OfOpening hand_off.now.home (λ x. IsBook of_chan x result.0.front) }
//~     ensures copy { IfOk result.1 (λ journal. journal.items ≡ result.0.front) }
{
    let lent = hand_off.take(rt, hand_seat);
    lent.book.book_law();
    let journal = lent.book.journal(alloc, spec);
    (lent.give(), journal)
}
