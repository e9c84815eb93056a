//! The receivers of a channel that are alive, with what is said of each: recorded or not.

use super::CallSite;
use super::waits::{NO_PLACE, WaitPlace};
use crate::channels::handle::Kind;
use std::mem;

/// Where a receiver is in the list of those that are alive.
#[derive(Clone, Copy, Debug, PartialEq, Eq)]
pub(crate) struct Slot(u32);

/// The slot of a sender, which is none.
pub(crate) const NO_SLOT: Slot = Slot(u32::MAX);

/// That of a weak sender. Fewer receivers are alive, since a channel has no place for as many
/// handles.
pub(super) const WEAK_SLOT: Slot = Slot(u32::MAX - 1);

impl Slot {
    /// The slot of the receiver that a channel is opened with.
    pub(crate) const FIRST: Slot = Slot(0);

    /// Returns the kind of the handle that has this slot.
    #[inline(always)]
    pub(crate) fn kind(self) -> Kind {
        match self {
            NO_SLOT => Kind::Sender,
            WEAK_SLOT => Kind::WeakSender,
            _ => Kind::Receiver,
        }
    }
}

/// What is known of a receiver, besides what the core knows.
#[derive(Clone, Copy)]
pub(crate) struct LiveReceiver {
    /// Its number as a handle. A slot without a receiver has `NO_NUMBER`, and in `lost` the next
    /// such slot, or `NO_SLOT`.
    pub(crate) number: u32,
    pub(crate) made_at: CallSite,
    /// Where it last received a value.
    pub(crate) received_at: CallSite,
    /// The stamp of that call, or 0 if it isn't recorded.
    pub(crate) received_stamp: u64,
    /// How many values it was told that it has lost.
    pub(crate) lost: u64,
    // The place of its call that waits with a ticket, or `NO_PLACE`.
    wait: WaitPlace,
}

/// A receiver in the list. It is written at each receive, so it shares no cache line with that of
/// another channel, which another thread writes.
#[repr(align(64))]
struct Apart(LiveReceiver);

/// A number that no handle has, since a channel has no place for that number of handles.
const NO_NUMBER: u32 = u32::MAX;

impl LiveReceiver {
    fn new(number: u32, made_at: CallSite) -> LiveReceiver {
        LiveReceiver {
            number,
            made_at,
            received_at: None,
            received_stamp: 0,
            lost: 0,
            wait: NO_PLACE,
        }
    }
}

/// The receivers of a channel that are alive. A slot is used again once its receiver is dropped, so
/// the list is as long as there were receivers at one time.
pub(crate) struct Receivers {
    // The receiver in the first slot. Most channels have no other, and so no list.
    first: LiveReceiver,
    // Those in the slots behind it.
    others: Vec<Apart>,
    // The slot that is used next, if one is free.
    free: Slot,
}

impl Default for Receivers {
    fn default() -> Receivers {
        let mut first = LiveReceiver::new(NO_NUMBER, None);
        first.lost = NO_SLOT.0.into();
        Receivers {
            first,
            others: Vec::new(),
            free: Slot::FIRST,
        }
    }
}

impl Receivers {
    #[inline(always)]
    fn slot(&self, Slot(slot): Slot) -> Option<&LiveReceiver> {
        match slot {
            0 => Some(&self.first),
            _ => self.others.get(slot as usize - 1).map(|it| &it.0),
        }
    }

    #[inline(always)]
    fn slot_mut(&mut self, Slot(slot): Slot) -> Option<&mut LiveReceiver> {
        match slot {
            0 => Some(&mut self.first),
            _ => self.others.get_mut(slot as usize - 1).map(|it| &mut it.0),
        }
    }

    /// Adds a receiver with this number that is made here, and returns its slot.
    #[inline]
    pub(super) fn add(&mut self, number: u32, made_at: CallSite) -> Slot {
        let slot = self.free;
        match self.slot_mut(slot) {
            Some(free) => {
                let next = Slot(free.lost as u32);
                *free = LiveReceiver::new(number, made_at);
                self.free = next;
                slot
            }
            None => self.add_slot(number, made_at),
        }
    }

    #[cold]
    fn add_slot(&mut self, number: u32, made_at: CallSite) -> Slot {
        self.others.push(Apart(LiveReceiver::new(number, made_at)));
        Slot(self.others.len() as u32)
    }

    /// Removes a receiver.
    #[inline]
    pub(super) fn remove(&mut self, slot: Slot) {
        let free = self.free;
        let Some(receiver) = self.slot_mut(slot) else {
            return;
        };
        receiver.number = NO_NUMBER;
        receiver.lost = free.0.into();
        self.free = slot;
    }

    /// Frees the memory of many slots. Where few receivers are left of many, none of them may be
    /// moved. Here none is left.
    #[cold]
    pub(super) fn remove_slots(&mut self) {
        if self.others.len() > 64 {
            *self = Receivers::default();
        }
    }

    /// Notes the place of the call of a receiver that waits, and returns the one that was noted
    /// before.
    #[inline]
    pub(super) fn note_wait(&mut self, slot: Slot, place: WaitPlace) -> Option<WaitPlace> {
        let receiver = self.slot_mut(slot)?;
        Some(mem::replace(&mut receiver.wait, place)).filter(|place| *place != NO_PLACE)
    }

    /// Returns the place of the call of a receiver that waits, which is no longer noted then.
    #[inline]
    pub(super) fn take_wait(&mut self, slot: Slot) -> Option<WaitPlace> {
        self.note_wait(slot, NO_PLACE)
    }

    /// Notes that the call of a receiver in this place no longer waits.
    #[inline]
    pub(super) fn end_wait(&mut self, slot: Slot, place: WaitPlace) {
        if let Some(receiver) = self.slot_mut(slot).filter(|it| it.wait == place) {
            receiver.wait = NO_PLACE;
        }
    }

    /// Whether a call of the receiver that waits is noted.
    #[inline(always)]
    pub(crate) fn has_wait(&self, slot: Slot) -> bool {
        let receiver = self.slot(slot);
        receiver.is_some_and(|receiver| receiver.wait.is_some())
    }

    /// Notes that a receiver has received a value here, by a call with this stamp. Returns whether
    /// a call of it that waits is noted.
    #[inline(always)]
    pub(super) fn receive(&mut self, slot: Slot, received_at: CallSite, stamp: u64) -> bool {
        let Some(receiver) = self.slot_mut(slot) else {
            return false;
        };
        receiver.received_at = received_at;
        receiver.received_stamp = stamp;
        receiver.wait.is_some()
    }

    /// Notes that a receiver was told that it has lost `lost` values.
    pub(super) fn lose(&mut self, slot: Slot, lost: u64) {
        if let Some(receiver) = self.slot_mut(slot) {
            receiver.lost += lost;
        }
    }

    /// Returns the receiver in this slot.
    pub(crate) fn get(&self, slot: Slot) -> &LiveReceiver {
        self.slot(slot).expect("the slot of a receiver")
    }

    /// Returns the receivers.
    pub(crate) fn iter(&self) -> impl Iterator<Item = &LiveReceiver> {
        let slots = 0..self.others.len() as u32 + 1;
        let receivers = slots.filter_map(|slot| self.slot(Slot(slot)));
        receivers.filter(|receiver| receiver.number != NO_NUMBER)
    }
}

#[cfg(test)]
mod tests {
    use super::*;

    #[test]
    fn a_slot_is_used_again_and_what_was_noted_is_gone() {
        let mut receivers = Receivers::default();
        assert_eq!(receivers.add(1, None), Slot::FIRST);
        let second = receivers.add(2, None);
        receivers.lose(second, 5);
        receivers.receive(second, None, 9);
        let last = receivers.add(7, None);
        receivers.remove(last);
        receivers.remove(second);
        assert_eq!(receivers.iter().count(), 1);
        assert_eq!(receivers.add(3, None), second);
        let third = receivers.get(second);
        assert_eq!((third.number, third.lost, third.received_stamp), (3, 0, 0));
        assert_eq!(
            (receivers.add(4, None), receivers.add(5, None)),
            (last, Slot(3))
        );
        let numbers: Vec<_> = receivers.iter().map(|receiver| receiver.number).collect();
        assert_eq!(numbers, [1, 3, 4, 5]);
    }

    #[test]
    fn many_receivers_that_are_gone_leave_no_memory() {
        let mut receivers = Receivers::default();
        let slots: Vec<_> = (0..1000)
            .map(|number| receivers.add(number, None))
            .collect();
        slots.into_iter().for_each(|slot| receivers.remove(slot));
        receivers.remove_slots();
        assert_eq!(
            (receivers.others.capacity(), receivers.iter().count()),
            (0, 0)
        );
    }
}
