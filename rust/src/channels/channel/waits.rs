//! What is known of the calls of a channel that began to wait, each in a place of its own from its
//! first poll to its end. A place is used again, so a call that waits allocates nothing where
//! others did before. Whether one still waits, the proved list says (`who_waits.rs`).

use super::receivers::Slot;
use crate::channels::wait::{Wait, WaitTicket};
use std::mem;
use yovanelum_record::listed::IntoList;
use yovanelum_record::sorting::sort_by_key;

/// Where a call is among those that wait.
#[derive(Clone, Copy, Debug, PartialEq, Eq)]
pub(super) struct WaitPlace(u32);

/// No place.
pub(super) const NO_PLACE: WaitPlace = WaitPlace(u32::MAX);

impl WaitPlace {
    /// Whether it is a place.
    #[inline(always)]
    pub(super) fn is_some(self) -> bool {
        self.0 != NO_PLACE.0
    }
}

/// A call that is listed: its place, and its number, which no other call of the channel has. Of two
/// calls, the one that began first has the lower number.
#[derive(Clone, Copy, Debug, PartialEq, Eq)]
pub(crate) struct ListedCall {
    number: u64,
    place: WaitPlace,
}

impl ListedCall {
    pub(super) fn place(self) -> WaitPlace {
        self.place
    }
}

/// A call that began to wait.
struct ListedWait {
    // `FREE` in a place without a call.
    number: u64,
    // With which it is among those that are woken, or `NO_TICKET`. Of a free place the next one
    // that is free, or `NO_PLACE`.
    ticket: WaitTicket,
    wait: Wait,
}

impl ListedWait {
    #[inline]
    fn ticket(&self) -> Option<WaitTicket> {
        (self.ticket != NO_TICKET).then_some(self.ticket)
    }
}

/// The number of no call.
const FREE: u64 = u64::MAX;

/// The ticket of a call that nothing wakes yet.
const NO_TICKET: WaitTicket = WaitTicket::MAX;

/// What a call had that no longer waits.
#[derive(Clone, Copy, Debug, PartialEq, Eq)]
pub(super) struct EndedWait {
    pub(super) slot: Slot,
    pub(super) ticket: Option<WaitTicket>,
}

/// The calls of a channel that began to wait and have not ended.
pub(crate) struct ListedCalls {
    places: Vec<ListedWait>,
    // The place that is used next, if one is free.
    free: WaitPlace,
    count: u32,
    // The number of the next call.
    next: u64,
}

impl ListedCalls {
    /// No call waits.
    pub(super) const NONE: ListedCalls = ListedCalls {
        places: Vec::new(),
        free: NO_PLACE,
        count: 0,
        next: 0,
    };

    /// Lists a call that begins to wait, and that nothing wakes yet.
    #[inline]
    pub(super) fn add(&mut self, wait: Wait) -> ListedCall {
        let number = self.next;
        self.next += 1;
        self.count += 1;
        let call = ListedWait {
            number,
            ticket: NO_TICKET,
            wait,
        };
        let place = self.free;
        match self.places.get_mut(place.0 as usize) {
            Some(free) => {
                self.free = WaitPlace(free.ticket as u32);
                *free = call;
                ListedCall { number, place }
            }
            None => {
                let place = WaitPlace(self.places.len() as u32);
                self.places.push(call);
                ListedCall { number, place }
            }
        }
    }

    #[inline]
    fn call(&self, listed: ListedCall) -> Option<&ListedWait> {
        let call = self.places.get(listed.place.0 as usize);
        call.filter(|call| call.number == listed.number)
    }

    /// Returns what is known of a call, if it waits.
    #[inline]
    pub(super) fn get(&self, listed: ListedCall) -> Option<&Wait> {
        self.call(listed).map(|call| &call.wait)
    }

    /// Returns the ticket of a call, if it waits and has one.
    #[inline]
    pub(super) fn ticket(&self, listed: ListedCall) -> Option<WaitTicket> {
        self.call(listed)?.ticket()
    }

    /// Notes the ticket of a call, if it waits, and returns its slot.
    #[inline]
    pub(super) fn set_ticket(&mut self, listed: ListedCall, ticket: WaitTicket) -> Option<Slot> {
        let call = self.places.get_mut(listed.place.0 as usize);
        let call = call.filter(|call| call.number == listed.number)?;
        call.ticket = ticket;
        Some(call.wait.slot)
    }

    /// Forgets the ticket of a call, which is of no use any more.
    pub(super) fn forget_ticket(&mut self, listed: ListedCall) {
        self.set_ticket(listed, NO_TICKET);
    }

    /// Removes a call, if it waits.
    #[inline]
    pub(super) fn remove(&mut self, listed: ListedCall) -> Option<EndedWait> {
        self.call(listed)?;
        self.remove_at(listed.place)
    }

    /// Removes the call in this place, if there is one.
    #[inline]
    pub(super) fn remove_at(&mut self, place: WaitPlace) -> Option<EndedWait> {
        let free = self.free;
        let call = self.places.get_mut(place.0 as usize)?;
        if mem::replace(&mut call.number, FREE) == FREE {
            return None;
        }
        let ticket = mem::replace(&mut call.ticket, free.0.into());
        let slot = call.wait.slot;
        self.free = place;
        self.count -= 1;
        if self.count == 0 && self.places.len() > 64 {
            self.remove_places();
        }
        Some(EndedWait {
            slot,
            ticket: (ticket != NO_TICKET).then_some(ticket),
        })
    }

    /// Frees the memory of many places, since no call waits.
    #[cold]
    fn remove_places(&mut self) {
        self.places = Vec::new();
        self.free = NO_PLACE;
    }

    /// Returns the calls in any order.
    pub(super) fn iter(&self) -> impl Iterator<Item = &Wait> {
        let calls = self.places.iter().filter(|call| call.number != FREE);
        calls.map(|call| &call.wait)
    }

    /// Returns the calls in the order in which they began to wait, each with its ticket, if it has
    /// one. Whether it waits isn't known here: see `ChannelState::who_waits`.
    pub(super) fn in_order(&self) -> Vec<(Option<WaitTicket>, &Wait)> {
        let calls = self.places.iter().filter(|call| call.number != FREE);
        let mut calls: Vec<_> = calls.listed();
        sort_by_key(&mut calls, |call| call.number);
        let calls = calls.iter().map(|call| (call.ticket(), &call.wait));
        calls.listed()
    }
}

#[cfg(test)]
mod tests {
    use super::*;
    use crate::channels::backend::Actor;
    use crate::channels::channel::NO_SLOT;
    use crate::channels::handle::Kind;
    use crate::channels::wait::{Awaited, Method};

    fn wait(handle: u32) -> Wait {
        Wait {
            actor: Actor::FIRST,
            handle,
            slot: NO_SLOT,
            kind: Kind::Receiver,
            awaited: Awaited::Value,
            method: Method::called("recv"),
            since: 0,
            began: None,
        }
    }

    fn handles(waits: &ListedCalls) -> Vec<u32> {
        let waits = waits.in_order().into_iter();
        waits.map(|(_, wait)| wait.handle).collect()
    }

    #[test]
    fn calls_are_in_the_order_in_which_they_began_also_where_places_are_used_again() {
        let mut waits = ListedCalls::NONE;
        let first = [1, 2, 3].map(|handle| waits.add(wait(handle)));
        waits.set_ticket(first[1], 7);
        let ended = |ticket| {
            let slot = NO_SLOT;
            Some(EndedWait { slot, ticket })
        };
        assert_eq!(waits.remove(first[0]), ended(None));
        assert_eq!(waits.remove(first[1]), ended(Some(7)));
        let then = [4, 5, 6].map(|handle| waits.add(wait(handle)));
        assert_eq!(then[0].place(), first[1].place());
        assert_eq!(handles(&waits), [3, 4, 5, 6]);
        // Its place is another call's now, which has no ticket.
        assert_eq!(waits.get(first[1]).map(|wait| wait.handle), None);
        assert_eq!(
            (waits.remove(first[1]), waits.ticket(then[0])),
            (None, None)
        );
        assert_eq!(waits.set_ticket(first[1], 9), None);
        assert_eq!(waits.remove_at(then[0].place()), ended(None));
        assert_eq!(waits.remove_at(then[0].place()), None);
        assert_eq!(handles(&waits), [3, 5, 6]);
    }

    #[test]
    fn many_calls_that_are_gone_leave_no_memory() {
        let mut waits = ListedCalls::NONE;
        let listed: Vec<_> = (0..1000).map(|handle| waits.add(wait(handle))).collect();
        assert_eq!(waits.iter().count(), 1000);
        assert!(listed.iter().all(|it| waits.remove(*it).is_some()));
        assert!(waits.count == 0 && waits.places.capacity() == 0);
        let next = waits.add(wait(7));
        assert!(listed.iter().all(|it| waits.get(*it).is_none()));
        assert_eq!((handles(&waits), waits.count), (vec![7], 1));
        assert!(waits.remove(next).is_some() && waits.places.capacity() > 0);
    }
}
