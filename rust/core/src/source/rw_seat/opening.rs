//! Opening desks with seats.
// From crates/rw_seat/src/opening.rt, with its contracts as comments. //+
use crate::shim::{Vec, VecExt}; //+

//~ ghost use Rattle.std.specs.Prelude.{◌≡◌, ◌<◌, ◌≤◌, ◌+◌, ◌∷◌, ◌++◌, ℕ, false, [], None, Some, All, length, map};
//~ ghost use Rattle.std.specs.Prelude.{slice_get, vec_len, vec_capacity, IfNone, IfOk, IfSome, MatchResult, OnOk};
//~ ghost use Rattle.rw_law.specs.declared.limits.TheConstants.{MOST_ACTORS};
//~ ghost use Rattle.rw_world.specs.declared.channels.Chan.{Chan as Chans};
//~ ghost use Rattle.rw_world.specs.Openings.{has_bad_capacity, opened_channel, refusal};
//~ ghost use Rattle.rw_desk.specs.Desks.{refusal_to_open};
//~ ghost use Rattle.rw_desk.specs.Passes.{fresh_pass};
//~ ghost use Rattle.rw_seat.specs.DeskSeats.{ChannelSeat, fresh_hand_seat, fresh_seat, with_hand_seat, DeskSeat as Seated};
//~ ghost use Rattle.rw_seat.specs.HandOffs.{HandOff as HandOffs};
//~ ghost use Rattle.rw_seat.specs.Rule.{numbers_from};
//~ ghost use Rattle.rw_seat.specs.SeatDesks.{HasOpened, opening_at};

use crate::source::rw_seat::boxed_ledger::BoxedLedger;
use crate::source::rw_seat::desk_seat::{ChannelSeat, DeskSeat};
use crate::source::rw_seat::hand_off::HandOff;
use crate::source::rw_seat::seat_desk::SeatDesk;
use crate::source::rw_desk::{DeskOpenFault, refusal_to_open};
use crate::source::rw_law::{NoMemory, Payload};
use crate::source::rw_world::{OpenFault, Spec};
use crate::shim::alloc::Global;

impl<V: Payload> SeatDesk<V> {
    /// Opens a desk with a channel for each spec, numbered 0, 1, 2, .. in order. Returns it with a seat for each actor, in the
    /// order of their numbers.
    pub fn open(
        alloc: Global,
        specs: &[Spec<V>],
        actors: u32,
    ) -> Result<(SeatDesk<V>, Vec<DeskSeat<V>>), DeskOpenFault>
//~         ensures refused { IfSome (refusal_to_open specs.now actors) (λ fault. result ≡ Err fault) }
//~         ensures opened { IfNone (refusal_to_open specs.now actors) (MatchResult result
//~             (λ r. HasOpened specs.now actors r.0 r.1.items)
//~             (λ fault. fault ≡ DeskOpenFault.World OpenFault.NoMemory)) }
    {
        if let Some(fault) = refusal_to_open(specs, actors) {
            return Err(fault);
        }
        match open_all(alloc, specs, actors) {
            Ok(opened) => Ok(opened),
            Err(NoMemory) => Err(DeskOpenFault::World(OpenFault::NoMemory)),
        }
    }
}

/// Opens a desk, for specs and a number of actors that `open` doesn't refuse.
fn open_all<V: Payload>(
    alloc: Global,
    specs: &[Spec<V>],
    actors: u32,
) -> Result<(SeatDesk<V>, Vec<DeskSeat<V>>), NoMemory>
//~     requires opens { refusal specs.now ≡ None }
//~     requires good { All (λ spec. has_bad_capacity spec ≡ false) specs.now }
//~     requires some { 0 < actors }
//~     requires few { actors ≤ MOST_ACTORS }
//~     ensures { IfOk result (λ r. HasOpened specs.now actors r.0 r.1.items) }
{
    let mut seats = seats_without_hand_seats(alloc, actors)?;
    let Ok(hand_offs) = open_hand_offs(alloc, specs, actors, &mut seats) else {
        drop(seats);
        return Err(NoMemory);
    };
    let Ok(specs) = Vec::from_slice(alloc, specs) else {
        drop(seats);
        drop(hand_offs);
        return Err(NoMemory);
    };
    let desk = SeatDesk {
        specs,
        actors,
        hand_offs,
    };
    Ok((desk, seats))
}

/// Opens a channel for each spec, and adds a `HandSeat` of it to each seat. If an allocation fails, some seats may already have
/// `HandSeat`s.
fn open_hand_offs<V: Payload>(
    alloc: Global,
    specs: &[Spec<V>],
    actors: u32,
    seats: &mut [DeskSeat<V>],
) -> Result<Vec<HandOff<BoxedLedger<V>>>, NoMemory>
//~     requires good { All (λ spec. has_bad_capacity spec ≡ false) specs.now }
//~     requires some { 0 < actors }
//~     requires few { actors ≤ MOST_ACTORS }
//~     requires all { length seats.old ≡ actors }
//~     requires fresh { (a : ℕ) → a < actors → slice_get seats.old a ≡ Some (fresh_seat [] a) }
//~     ensures length { length seats.new ≡ length seats.old }
//~     ensures opened { IfOk result (λ r. map (λ h. opening_at h.home) r.items ≡ map (λ spec. Some (opened_channel spec)) specs.now) }
//~     ensures seats { IfOk result (λ r. (a : ℕ) → a < actors → slice_get seats.new a ≡ Some (fresh_seat (map (λ h. h.home) r.items) a)) }
{
    let mut hand_offs = Vec::with_capacity(alloc, specs.len())?;
    for spec in specs {
        if let Err(fault) = open_to_seats(alloc, spec, seats, &mut hand_offs, actors) {
            drop(hand_offs);
            return Err(fault);
        }
    }
    Ok(hand_offs)
}

/// Opens a channel, and adds a `HandSeat` of it to each seat. Its hand-off is pushed even if the allocation for a `HandSeat`
/// fails.
fn open_to_seats<V: Payload>(
    alloc: Global,
    spec: &Spec<V>,
    seats: &mut [DeskSeat<V>],
    hand_offs: &mut Vec<HandOff<BoxedLedger<V>>>,
    actors: u32,
) -> Result<(), NoMemory>
//~     requires good { has_bad_capacity spec.now ≡ false }
//~     requires some { 0 < actors }
//~     requires few { actors ≤ MOST_ACTORS }
//~     requires all { length seats.old ≡ actors }
//~     requires fresh { (a : ℕ) → IfSome (slice_get seats.old a) (λ s. s.pass ≡ fresh_pass a) }
//~     requires room { vec_len hand_offs.old < vec_capacity hand_offs.old }
//~     ensures length { length seats.new ≡ length seats.old }
//~     ensures len { OnOk result (vec_len hand_offs.new ≡ vec_len hand_offs.old + 1) }
//~     ensures capacity { vec_capacity hand_offs.new ≡ vec_capacity hand_offs.old }
//~     ensures opened { OnOk result ((h : HandOffs (Chans V)) × (hand_offs.new.items ≡ hand_offs.old.items ++ h ∷ [])
//~         × (opening_at h.home ≡ Some (opened_channel spec.now))
//~         × ((a : ℕ) (s : Seated V) → a < actors → slice_get seats.old a ≡ Some s →
//~         slice_get seats.new a ≡ Some (with_hand_seat s (fresh_hand_seat a h.home)))) }
{
    let (hand_off, hand_seats) = open_hand_off(alloc, spec, actors)?;
    hand_offs.push_reserved(hand_off);
    add_hand_seats(seats, hand_seats)
}

/// Makes a seat for each actor, without `HandSeat`s.
fn seats_without_hand_seats<V: Payload>(
    alloc: Global,
    actors: u32,
) -> Result<Vec<DeskSeat<V>>, NoMemory>
//~     requires { actors ≤ MOST_ACTORS }
//~     ensures { IfOk result (λ seats. (length seats.items ≡ actors)
//~         × ((a : ℕ) → a < actors → slice_get seats.items a ≡ Some (record { pass = fresh_pass a; hand_seats = [] }))) }
{
    let mut seats = Vec::new(alloc);
    for actor in 0..actors {
        seats.push(DeskSeat::new(alloc, actor))?;
    }
    Ok(seats)
}

/// Opens a channel, and a hand-off of its book.
fn open_hand_off<V: Payload>(
    alloc: Global,
    spec: &Spec<V>,
    seats: u32,
) -> Result<(HandOff<BoxedLedger<V>>, Vec<ChannelSeat<V>>), NoMemory>
//~     requires good { has_bad_capacity spec.now ≡ false }
//~     requires some { 0 < seats }
//~     requires few { seats ≤ MOST_ACTORS }
//~     ensures opened { IfOk result (λ r. opening_at r.0.home ≡ Some (opened_channel spec.now)) }
//~     ensures seats { IfOk result (λ r. r.1.items ≡ map (λ n. fresh_hand_seat n r.0.home) (numbers_from 0 seats)) }
{
    let ledger = BoxedLedger::open(alloc, spec)?;
    HandOff::open(alloc, ledger, seats)
}

/// Adds each `HandSeat` to the seat with its number. A `HandSeat` whose allocation fails is dropped.
fn add_hand_seats<V: Payload>(
    seats: &mut [DeskSeat<V>],
    mut hand_seats: Vec<ChannelSeat<V>>,
) -> Result<(), NoMemory>
//~     requires all { length seats.old ≡ length hand_seats.items }
//~     requires fresh { (a : ℕ) → IfSome (slice_get seats.old a) (λ s. s.pass ≡ fresh_pass a) }
//~     requires hand_seats { (a : ℕ) → IfSome (slice_get hand_seats.items a) (λ h. (h.number ≡ a) × (h.front ≡ [])) }
//~     ensures length { length seats.new ≡ length seats.old }
//~     ensures each { OnOk result ((a : ℕ) (s : Seated V) (h : ChannelSeat V) →
//~         slice_get seats.old a ≡ Some s →
//~         slice_get hand_seats.items a ≡ Some h →
//~         slice_get seats.new a ≡ Some (with_hand_seat s h)) }
{
    let mut added = Ok(());
    while let Some(hand_seat) = hand_seats.pop() {
        if let Err(fault) = seats[hand_seats.len()].add(hand_seat) {
            added = Err(fault);
        }
    }
    hand_seats.destroy_empty();
    added
}
