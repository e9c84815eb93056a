//! Where a channel finds room for a further handle: a machine takes out its dropped handles, or a
//! further machine is opened.

use super::{CoreChannel, machine};
use crate::channels::backend::Recording;
use crate::channels::channel::machine::Machine;
use crate::channels::channel::numbers::Place;
use std::{iter, mem};
use yovanelum_core::shim::Vec as CoreVec;
use yovanelum_record::listed::IntoList;
use yovanelum_record::reply::Reply;

impl CoreChannel {
    /// Whether a quarter of the handles that a journal names aren't alive, and no others are.
    pub(crate) fn has_room_again(&self) -> bool {
        self.further.is_empty() && self.first.has_much_room()
    }

    /// Forgets all calls so far of a channel that keeps its last calls. Returns the numbers of its
    /// handles, in the order of their table, and how many were created in all, or `None` if there
    /// is no memory for it.
    pub(crate) fn forget_all(&mut self) -> Option<(Vec<u32>, u64)> {
        // What is kept since one renumbering is the past of the next one. That has no calls.
        self.renumber(0)?;
        self.renumber(0)?;
        self.first.look_when_full();
        let numbers = (0..self.first.made()).map(|handle| self.first.number(handle));
        Some((
            numbers.listed(),
            self.numbers.all_created(self.first.made()),
        ))
    }

    /// Returns how many calls of the first machine nobody has made since this was last asked.
    pub(crate) fn take_by_nobody(&mut self) -> u64 {
        self.first.take_by_nobody()
    }

    /// As [`create`](CoreChannel::create), where handles have numbers of their own, or the first
    /// machine has no room. It isn't inlined, so that the call of a channel that is recorded is.
    #[inline(never)]
    pub(super) fn create_by_own(
        &mut self,
        caller: u32,
        by_caller: impl FnOnce(&mut Recording, u32) -> Reply,
        by_other: impl FnOnce(&mut Machine) -> Reply,
    ) -> Reply {
        if self.further.is_empty() && self.make_room(0) {
            let place = self.numbers.own_place(caller);
            let reply = by_caller(&mut self.first.core, place.map_or(caller, Place::handle));
            return self.add_created(0, reply);
        }
        let Some(number) = self.machine_with_room() else {
            return Reply::NoMemory;
        };
        let reply = by_other(self.machine(number));
        self.add_created(number, reply)
    }

    /// Counts the handle that a call has created in this machine, if it has, and gives it a number.
    fn add_created(&mut self, machine: usize, reply: Reply) -> Reply {
        let Reply::New(handle) = self.machine(machine).count_made(reply) else {
            return reply;
        };
        if !self.numbers.are_own() {
            return reply;
        }
        let number = self.numbers.add(Place::new(machine, handle as u32));
        self.machine(machine).add_number(number);
        Reply::New(number.into())
    }

    /// Reserves memory for numbers of their own, unless handles have them. Returns `false` if there
    /// is none.
    fn reserve_numbers(&mut self) -> bool {
        self.numbers.are_own()
            || self.first.reserve_numbers().is_ok()
                && self.numbers.reserve(self.first.made()).is_ok()
    }

    /// Gives handles numbers of their own, unless they have them. The memory is reserved.
    fn begin_numbers(&mut self) {
        if !self.numbers.are_own() {
            self.first.begin_numbers();
            self.numbers.begin(self.first.made());
        }
    }

    /// Takes the dropped handles out of a machine. The others have the numbers 0, 1, 2, .. there
    /// from then on, in the order of those that they had. Returns these, or `None` if there was no
    /// memory for it, and nothing has changed.
    pub(super) fn renumber(&mut self, number: usize) -> Option<CoreVec<u32>> {
        if !self.reserve_numbers() {
            return None;
        }
        let before = self.machine(number).core.renumber()?;
        let may_end = self.further.is_empty() && self.numbers.may_be_of_machine(before.len());
        let have_moved = before
            .last()
            .is_some_and(|last| *last as usize >= before.len());
        if self.numbers.are_own() || have_moved || !may_end {
            self.begin_numbers();
            let machine = machine(&mut self.first, &mut self.further, number);
            machine.renumber(number, &before, &mut self.numbers);
        }
        let (alive, made) = (before.len() as u32, self.machine(number).made());
        self.machine(number).set_alive(alive);
        if may_end && self.first.has_same_numbers() {
            self.numbers.be_of_machine(alive, made);
            self.first.end_numbers();
        }
        Some(before)
    }

    /// Whether a machine can make a further handle, once its dropped ones are taken out if they are
    /// many.
    #[inline]
    fn make_room(&mut self, number: usize) -> bool {
        self.machine(number).has_room() || self.look_for_room(number)
    }

    /// As [`make_room`](CoreChannel::make_room), where it is to be looked for dropped handles. That
    /// ends the recording of the channel.
    #[cold]
    #[inline(never)]
    fn look_for_room(&mut self, number: usize) -> bool {
        self.end();
        let machine = self.machine(number);
        machine.has_many_dropped() && self.renumber(number).is_some()
            || self.machine(number).set_next_look()
    }

    /// Returns the number of a machine that has room for a handle, and what creates it for those of
    /// other machines. If there is none, a further one is opened. Returns `None` if there is no
    /// memory for the numbers of handles.
    fn machine_with_room(&mut self) -> Option<usize> {
        if !self.reserve_numbers() {
            return None;
        }
        self.begin_numbers();
        let is_closed = self.senders() == 0;
        let number = match self.further_with_room(is_closed) {
            Some(number) => number,
            None => self.open_further(is_closed),
        };
        let before = mem::replace(&mut self.newest, number);
        self.drop_if_unused(before);
        Some(number)
    }

    /// Returns the number of a machine that has room, if there are several: best that of the
    /// newest.
    fn further_with_room(&mut self, is_closed: bool) -> Option<usize> {
        if self.further.is_empty() {
            return None;
        }
        // Where the last calls are kept, that goes on once all are in the first one.
        let best = if self.first.core.keeps_last() {
            0
        } else {
            self.newest
        };
        let mut all = iter::once(best).chain(0..=self.further.len());
        all.find(|number| self.can_create(*number, is_closed))
    }

    /// Opens a further machine, and returns its number. The first one is found a sender that stands
    /// for others.
    fn open_further(&mut self, is_closed: bool) -> usize {
        if self.further.is_empty() {
            self.first.find_sender();
        }
        let spec = self.first.core.spec();
        self.add(Machine::further(spec, self.most, is_closed))
    }

    /// Whether there is a machine with this number that can create handles for those of others.
    fn can_create(&mut self, number: usize, is_closed: bool) -> bool {
        let machine = match number {
            0 => Some(&self.first),
            _ => self.further[number - 1].as_ref(),
        };
        machine.is_some_and(|machine| machine.serves(is_closed))
            && self.make_room(number)
            && self.machine(number).make_weak()
    }

    /// Adds a further machine, and returns its number.
    fn add(&mut self, machine: Machine) -> usize {
        let free = self.further.iter().position(Option::is_none);
        let index = free.unwrap_or_else(|| {
            self.further.push(None);
            self.further.len() - 1
        });
        // 65,536 machines, each with a live handle, would need 64 GiB.
        assert!(
            index < 65_535,
            "yovanelum: a channel has machines for 4294967296 handles"
        );
        self.further[index] = Some(machine);
        index + 1
    }

    /// Removes a handle that was dropped.
    #[inline(never)]
    pub(super) fn remove(&mut self, number: u32) {
        let place = self.numbers.place(number);
        self.numbers.remove(number);
        self.machine(place.machine()).remove_number(place.handle());
        if !self.further.is_empty() {
            self.settle_drop(place.machine());
        }
    }

    /// Drops what the drop of a handle of this machine has left without use: the senders that stand
    /// for others, or further machines.
    #[cold]
    fn settle_drop(&mut self, number: usize) {
        if self.senders() == 0 {
            for machine in self.machines() {
                machine.drop_sender();
            }
        }
        self.drop_if_unused(number);
        let is_alone = self.further.iter_mut().flatten().all(Machine::is_unused);
        if is_alone && self.first.may_have_room() {
            self.further.clear();
            self.newest = 0;
            self.first.stand_alone();
        }
    }

    /// Drops a machine if no handle of it is alive. The first one stays, since it has the journal,
    /// and the newest, since it has room.
    fn drop_if_unused(&mut self, number: usize) {
        if number != 0 && number != self.newest && self.machine(number).is_unused() {
            self.further[number - 1] = None;
        }
    }
}
