//! A channel of the core: one machine, or several if more handles are alive than a machine makes.
//!
//! A machine makes 65,536 handles. Once a channel isn't recorded, dropped handles are taken out of
//! it, and those that are alive get the first numbers there. Each keeps the number that this crate
//! knows it by, from which a table leads to that in the machine ([`Numbers`]). The look into it is
//! inlined into each call, and finds nothing while the two are the same.
//!
//! Where more handles are alive, a further machine is opened beside the first, and makes them. From
//! then on each send is made in all machines, and each receive in the one that made the receiver.
//! So each receiver gets what was sent since it was created, and a machine's answer on its own
//! handles is the channel's. Counts are sums. For the senders of other machines each machine has a
//! sender that stands for them. It is dropped when the last sender of the channel is. Further
//! machines are dropped once no handle of theirs is alive.
//!
//! The journal of a channel is that of its first machine. Its recording ends before that one is
//! full.

mod room;
#[cfg(test)]
mod tests;

use super::machine::{MOST_HANDLES, Machine, made};
use super::numbers::{Numbers, Place};
use crate::channels::backend::{Caller, Recording, Spec};
use crate::channels::results::ReplyResult;
use std::iter;
use yovanelum_core::shim::Vec as CoreVec;
use yovanelum_core::source::rw_law::NoMemory;
use yovanelum_core::source::rw_steps::Told;
use yovanelum_core::source::rw_waiting::Counts;
use yovanelum_record::reply::Reply;

/// A channel of the core.
pub(crate) struct CoreChannel {
    // How many handles each machine makes.
    most: u32,
    first: Machine,
    // The machines 1, 2, .. A machine whose handles are all dropped is dropped too, and its number
    // is used again.
    further: Vec<Option<Machine>>,
    // The number of the machine that creates handles, where there are several.
    newest: usize,
    numbers: Numbers,
}

/// A call by the number of a handle, such as [`CoreChannel::broadcast_subscribe`].
pub(crate) type Call = fn(&mut CoreChannel, Caller, u32) -> Reply;

/// A call by the number of a sender, which sends the value with a number, such as
/// [`CoreChannel::broadcast_send`].
pub(crate) type Send = fn(&mut CoreChannel, Caller, u32, u64) -> Reply;

/// A call that drops the handle with a number while some call waits, such as
/// [`CoreChannel::broadcast_drop_step`]. It returns what it tells.
pub(crate) type DropStep = fn(&mut CoreChannel, Caller, u32) -> (Reply, Told);

impl CoreChannel {
    /// Wraps a machine that was opened with sender 0 and receiver 1. No call was made yet.
    #[inline]
    pub(crate) fn new(core: Recording) -> CoreChannel {
        CoreChannel::of_most(core, MOST_HANDLES)
    }

    #[inline]
    fn of_most(core: Recording, most: u32) -> CoreChannel {
        CoreChannel {
            most,
            first: Machine::first(core, most),
            further: Vec::new(),
            newest: 0,
            numbers: Numbers::default(),
        }
    }

    /// Goes on with the last calls alone. It makes each recorded call again. At an error nothing
    /// has changed.
    pub(crate) fn keep_last(&mut self, chunk: usize) -> Result<(), NoMemory> {
        self.first.core.keep_last(chunk)?;
        self.first.look_when_full();
        Ok(())
    }

    /// Takes the dropped handles out of the table of a channel that keeps its last calls, if they
    /// are many: with a chunk of `chunk` calls, or where the table is full. The calls before are
    /// kept by the previous numbers. Returns the numbers that the others had, or `None` if nothing
    /// was taken out.
    pub(crate) fn renumber_last(&mut self, chunk: Option<usize>) -> Option<CoreVec<u32>> {
        let has_many = match chunk {
            Some(chunk) => self.first.has_dropped_for_chunk(chunk),
            None => self.first.has_many_dropped(),
        };
        if !has_many || !self.further.is_empty() {
            return None;
        }
        let before = self.renumber(0);
        self.first.look_when_full();
        before
    }

    /// Gives the chunks of the last calls this size, or one that is nearer to it than that which
    /// they have. Returns the size, if it has one.
    pub(crate) fn resize_chunks(&mut self, size: usize) -> Option<usize> {
        self.first.core.resize_chunks(size)
    }

    /// How many handles are alive of those that a chunk of the last calls copies. It copies dropped
    /// ones too, until they are taken out, which they are before they are many more.
    pub(crate) fn live_in_chunk(&self) -> usize {
        self.first.alive() as usize
    }

    /// Forgets the calls from before a renumbering, where enough later ones are kept. Returns
    /// whether calls are kept by the numbers of before.
    pub(crate) fn forget_past(&mut self) -> bool {
        self.first.core.forget_past();
        self.keeps_past()
    }

    /// Whether the last calls are kept by the numbers that handles had before a renumbering.
    pub(crate) fn keeps_past(&self) -> bool {
        self.first.core.keeps_past()
    }

    /// Returns the number of a handle in the table of the machine that has the journal.
    pub(crate) fn number_in_table(&self, handle: u32) -> u32 {
        let place = self.numbers.own_place(handle);
        place.map_or(handle, Place::handle)
    }

    /// Ends recording: later calls are made as before, and leave no entry.
    pub(crate) fn end(&mut self) {
        if self.first.core.is_recorded() {
            self.first.core.end();
            self.numbers.keep(self.first.made());
            self.first.set_next_look();
        }
    }

    /// How many entries the journal has.
    pub(crate) fn entries(&mut self) -> u64 {
        self.first.core.entries()
    }

    /// Returns the machine that has the journal.
    pub(crate) fn recorded(&mut self) -> &mut Recording {
        &mut self.first.core
    }

    /// Whether the channel, which is recorded, has created as many handles as a journal can name.
    #[inline]
    pub(crate) fn has_named_all(&self) -> bool {
        !self.first.has_room()
    }

    /// How many handles the channel had created before this one, which no other handle of it has in
    /// common.
    pub(crate) fn nth(&self, handle: u32) -> u64 {
        self.numbers.nth(handle)
    }

    /// Returns the capacity that a broadcast was opened with.
    pub(crate) fn capacity(&self) -> Option<usize> {
        match self.first.core.spec() {
            Spec::Broadcast(capacity) => Some(capacity as usize),
            Spec::Watch(_) => None,
        }
    }

    /// How many senders are alive.
    pub(crate) fn senders(&mut self) -> u64 {
        self.count(Machine::senders)
    }

    /// How many weak senders are alive.
    pub(crate) fn weak_senders(&mut self) -> u64 {
        self.count(Machine::weak_senders)
    }

    /// How many receivers are alive.
    pub(crate) fn receivers(&mut self) -> u64 {
        self.count(Machine::receivers)
    }

    /// The sum of a count of each machine.
    #[inline(always)]
    fn count(&mut self, count: impl Fn(&mut Machine) -> u64) -> u64 {
        let further = self.further.iter_mut().flatten();
        count(&mut self.first) + further.map(&count).sum::<u64>()
    }

    /// How many values a broadcast retains for some receiver. They are the last ones that were
    /// sent, in each machine.
    pub(crate) fn queued(&mut self) -> u64 {
        let mut most = 0;
        for machine in self.machines() {
            most = most.max(machine.core.queued());
        }
        most
    }

    /// How many values a receiver of a broadcast has yet to receive.
    pub(crate) fn unread(&mut self, receiver: u32) -> u64 {
        let (machine, receiver) = self.machine_of(receiver);
        machine.core.unread(receiver)
    }

    /// Whether a receiver of a watch has seen its value.
    #[inline]
    pub(crate) fn seen(&mut self, receiver: u32) -> bool {
        let (machine, receiver) = self.machine_of(receiver);
        machine.core.seen(receiver)
    }

    fn machines(&mut self) -> impl Iterator<Item = &mut Machine> {
        iter::once(&mut self.first).chain(self.further.iter_mut().flatten())
    }

    fn machine(&mut self, number: usize) -> &mut Machine {
        machine(&mut self.first, &mut self.further, number)
    }

    /// Returns the machine of a handle, and the handle's number there.
    #[inline(always)]
    fn machine_of(&mut self, handle: u32) -> (&mut Machine, u32) {
        let Some(place) = self.numbers.own_place(handle) else {
            return (&mut self.first, handle);
        };
        match place.machine() {
            0 => (&mut self.first, place.handle()),
            number => (self.further_machine(number), place.handle()),
        }
    }

    #[cold]
    #[inline(never)]
    fn further_machine(&mut self, number: usize) -> &mut Machine {
        self.machine(number)
    }

    /// Makes a call of a sender in all machines, where there are several, and folds their replies.
    /// The sender's own is the first. It isn't inlined, so that the call of a channel with one
    /// machine is.
    #[cold]
    #[inline(never)]
    fn call_several(
        &mut self,
        place: Place,
        call: &dyn Fn(&mut Recording, u32) -> Reply,
        fold: fn(Reply, Reply) -> Reply,
    ) -> Reply {
        let own = place.machine();
        let reply = call(&mut self.machine(own).core, place.handle());
        let mut reply = reply.expect_made();
        let first = iter::once(Some(&mut self.first));
        let all = first.chain(self.further.iter_mut().map(Option::as_mut));
        let others = all.enumerate().filter(|(number, _)| *number != own);
        for machine in others.filter_map(|(_, machine)| machine) {
            reply = fold(reply, made(machine.by_sender(call)));
        }
        reply
    }

    /// Makes a call that creates a handle: by the caller, or where there are several machines in
    /// one of them by a handle that stands for it.
    #[inline(always)]
    fn create(
        &mut self,
        caller: u32,
        by_caller: impl FnOnce(&mut Recording, u32) -> Reply,
        by_other: impl FnOnce(&mut Machine) -> Reply,
    ) -> Reply {
        if self.numbers.are_own() || !self.first.has_room() {
            return self.create_by_own(caller, by_caller, by_other);
        }
        let reply = by_caller(&mut self.first.core, caller);
        self.first.count_made(reply)
    }

    /// Makes the call that drops a handle.
    #[inline(always)]
    fn drop_handle(
        &mut self,
        handle: u32,
        drop: impl FnOnce(&mut Recording, u32) -> Reply,
    ) -> Reply {
        let (machine, number) = self.machine_of(handle);
        let reply = machine.drop_handle(number, drop);
        if self.numbers.are_own() && reply == Reply::Dropped {
            self.remove(handle);
        }
        reply
    }
}

/// Returns the machine with this number.
fn machine<'a>(
    first: &'a mut Machine,
    further: &'a mut [Option<Machine>],
    number: usize,
) -> &'a mut Machine {
    match number {
        0 => first,
        _ => {
            let machine = further[number - 1].as_mut();
            machine.expect("a machine with a live handle")
        }
    }
}

/// The reply to a send, of those of two machines. One without receivers has none who could get the
/// value.
fn sent(one: Reply, other: Reply) -> Reply {
    match (one, other) {
        (Reply::Sent(one), Reply::Sent(other)) => Reply::Sent(one + other),
        (Reply::NoReceivers(_), reply) | (reply, _) => reply,
    }
}

fn count_of(reply: Reply) -> u64 {
    reply.count() as u64
}

/// The sum of two counts.
fn sum(one: Reply, other: Reply) -> Reply {
    Reply::Count(count_of(one) + count_of(other))
}

/// The greater of two counts.
fn greater(one: Reply, other: Reply) -> Reply {
    Reply::Count(count_of(one).max(count_of(other)))
}

/// Whether there are no receivers, of the replies of two machines that ask or wait for it.
fn all_closed(one: Reply, other: Reply) -> Reply {
    match one {
        Reply::Flag(1) | Reply::Done => other,
        reply => reply,
    }
}

/// Calls that read or change the state of one handle.
macro_rules! calls_of_one_machine {
    ($($method:ident)*) => {
        impl CoreChannel {
            $(#[cfg_attr(debug_assertions, inline(never))]
            #[cfg_attr(not(debug_assertions), inline(always))]
            pub(crate) fn $method(&mut self, caller: Caller, handle: u32) -> Reply {
                let (machine, number) = self.machine_of(handle);
                machine.core.$method(caller, number)
            })*
        }
    };
}

calls_of_one_machine! {
    broadcast_try_recv broadcast_recv broadcast_receiver_len
    watch_borrow watch_update watch_has_changed watch_changed watch_mark_changed watch_mark_unchanged
}

/// Calls of a sender that concern all receivers, and so are made in all machines, each with the
/// function that folds the replies of two of them.
macro_rules! calls_of_all_machines {
    ($($method:ident($($arg:ident: $type:ty),*) by $fold:ident;)*) => {
        impl CoreChannel {
            $(#[cfg_attr(debug_assertions, inline(never))]
            #[cfg_attr(not(debug_assertions), inline(always))]
            pub(crate) fn $method(&mut self, caller: Caller, sender: u32, $($arg: $type),*) -> Reply {
                let number = match self.numbers.own_place(sender) {
                    None => sender,
                    Some(place) if self.further.is_empty() => place.handle(),
                    Some(place) => {
                        let call = move |core: &mut Recording, sender| core.$method(caller, sender, $($arg),*);
                        return self.call_several(place, &call, $fold);
                    }
                };
                self.first.core.$method(caller, number, $($arg),*)
            })*
        }
    };
}

calls_of_all_machines! {
    broadcast_send(value: u64) by sent;
    broadcast_sender_len() by greater;
    broadcast_receiver_count() by sum;
    watch_send(value: u64) by sent;
    watch_send_replace(value: u64) by sent;
    watch_modify(told: bool, value: u64) by sent;
    watch_receiver_count() by sum;
    watch_is_closed() by all_closed;
    watch_closed() by all_closed;
}

/// Calls of a sender or a weak sender that create one, each with what makes it in another machine.
macro_rules! calls_that_create_senders {
    ($($method:ident by $other:ident;)*) => {
        impl CoreChannel {
            $(#[cfg_attr(debug_assertions, inline(never))]
            #[cfg_attr(not(debug_assertions), inline(always))]
            pub(crate) fn $method(&mut self, caller: Caller, handle: u32) -> Reply {
                self.create(
                    handle,
                    |core, handle| core.$method(caller, handle),
                    |machine| machine.$other(|core, handle| core.$method(caller, handle)),
                )
            })*
        }
    };
}

calls_that_create_senders! {
    broadcast_clone_sender by by_sender;
    broadcast_downgrade by by_sender;
    broadcast_upgrade by by_weak;
    broadcast_clone_weak by by_weak;
    watch_clone_sender by by_sender;
}

impl CoreChannel {
    #[cfg_attr(debug_assertions, inline(never))]
    #[cfg_attr(not(debug_assertions), inline(always))]
    pub(crate) fn broadcast_subscribe(&mut self, caller: Caller, sender: u32) -> Reply {
        self.create(
            sender,
            |core, sender| core.broadcast_subscribe(caller, sender),
            |machine| machine.by_sender(|core, other| core.broadcast_subscribe(caller, other)),
        )
    }

    #[cfg_attr(debug_assertions, inline(never))]
    #[cfg_attr(not(debug_assertions), inline(always))]
    pub(crate) fn broadcast_resubscribe(&mut self, caller: Caller, receiver: u32) -> Reply {
        self.create(
            receiver,
            |core, receiver| core.broadcast_resubscribe(caller, receiver),
            |machine| {
                machine.receive(
                    |core, other| core.broadcast_subscribe(caller, other),
                    |core, other| core.broadcast_resubscribe(caller, other),
                )
            },
        )
    }

    #[cfg_attr(debug_assertions, inline(never))]
    #[cfg_attr(not(debug_assertions), inline(always))]
    pub(crate) fn broadcast_drop(&mut self, caller: Caller, handle: u32) -> Reply {
        self.drop_handle(handle, |core, handle| core.broadcast_drop(caller, handle))
    }

    #[cfg_attr(debug_assertions, inline(never))]
    #[cfg_attr(not(debug_assertions), inline(always))]
    pub(crate) fn watch_subscribe(&mut self, caller: Caller, sender: u32) -> Reply {
        self.create(
            sender,
            |core, sender| core.watch_subscribe(caller, sender),
            |machine| machine.by_sender(|core, other| core.watch_subscribe(caller, other)),
        )
    }

    /// Clones a receiver. One that is created in another machine is marked as the original is.
    #[cfg_attr(debug_assertions, inline(never))]
    #[cfg_attr(not(debug_assertions), inline(always))]
    pub(crate) fn watch_clone_receiver(&mut self, caller: Caller, receiver: u32) -> Reply {
        let is_seen = self.seen(receiver);
        self.create(
            receiver,
            |core, receiver| core.watch_clone_receiver(caller, receiver),
            |machine| {
                let reply = machine.receive(
                    |core, other| core.watch_subscribe(caller, other),
                    |core, other| core.watch_clone_receiver(caller, other),
                );
                if let Reply::New(_) = reply {
                    let clone = reply.new_handle();
                    if is_seen {
                        made(machine.core.watch_mark_unchanged(caller, clone))
                    } else {
                        made(machine.core.watch_mark_changed(caller, clone))
                    };
                }
                reply
            },
        )
    }

    #[cfg_attr(debug_assertions, inline(never))]
    #[cfg_attr(not(debug_assertions), inline(always))]
    pub(crate) fn watch_drop(&mut self, caller: Caller, handle: u32) -> Reply {
        self.drop_handle(handle, |core, handle| core.watch_drop(caller, handle))
    }
}

/// Calls that drop a handle while some call waits, each with what it tells.
macro_rules! steps_that_drop {
    ($($step:ident by $method:ident;)*) => {
        impl CoreChannel {
            $(pub(crate) fn $step(&mut self, caller: Caller, handle: u32) -> (Reply, Told) {
                if !self.further.is_empty() {
                    return self.drop_among_several(|it| it.$method(caller, handle));
                }
                let place = self.numbers.own_place(handle);
                let number = place.map_or(handle, Place::handle);
                let (reply, told) = self.first.core.$step(caller, number);
                if self.numbers.are_own() && reply == Reply::Dropped {
                    self.remove(handle);
                }
                (reply, told)
            })*
        }
    };
}

steps_that_drop! {
    broadcast_drop_step by broadcast_drop;
    watch_drop_step by watch_drop;
}

impl CoreChannel {
    /// Makes the call that drops a handle of one of several machines. What it tells, the counts of
    /// all of them say.
    fn drop_among_several(
        &mut self,
        drop: impl FnOnce(&mut CoreChannel) -> Reply,
    ) -> (Reply, Told) {
        let before = self.counts();
        let reply = drop(self);
        (reply, Told::counted(reply, before, self.counts()))
    }

    /// How many senders and receivers are alive.
    fn counts(&mut self) -> Counts {
        Counts {
            senders: self.senders(),
            receivers: self.receivers(),
        }
    }
}
