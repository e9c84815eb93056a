//! One machine of the core, which makes 65,536 handles of a channel.

use super::numbers::{NO_NUMBER, Numbers, Place};
use crate::channels::backend::{Actor, Caller, Recording, Spec};
use crate::channels::results::ReplyResult;
use std::alloc::{Layout, handle_alloc_error};
use std::collections::TryReserveError;
use std::mem;
use yovanelum_record::reply::Reply;

/// How many handles a machine makes.
pub(super) const MOST_HANDLES: u32 = 65_536;

/// A full machine is renumbered if more than one in this number of its handles is dropped. For
/// fewer it would take too long.
const FEW: u32 = 128;

/// It is first looked whether most handles are dropped when a machine has made one in this number
/// of those that it can make.
const FIRST_LOOK: u32 = 64;

/// How many dropped handles a chunk of the last calls takes out at least, unless it has fewer
/// calls. The lists of a chunk are allocated again then, so few aren't worth it.
const LEAST_DROPPED: usize = 4_096;

/// Who makes the calls that open a machine. They are not recorded.
const NOBODY: Caller = Caller {
    actor: Actor::FIRST,
    clock: 0,
};

/// Drops a handle that is nobody's.
fn drop_handle(core: &mut Recording, handle: u32) {
    made(match core.spec() {
        Spec::Broadcast(_) => core.broadcast_drop(NOBODY, handle),
        Spec::Watch(_) => core.watch_drop(NOBODY, handle),
    });
}

/// Whether this is a live sender. It is asked what only a sender may ask.
fn is_sender(core: &mut Recording, handle: u32) -> bool {
    let reply = match core.spec() {
        Spec::Broadcast(_) => core.broadcast_receiver_count(NOBODY, handle),
        Spec::Watch(_) => core.watch_receiver_count(NOBODY, handle),
    };
    matches!(reply, Reply::Count(_))
}

/// A machine with the handles that stand for those of the channel's other machines.
pub(super) struct Machine {
    pub(super) core: Recording,
    // How many handles it makes at most.
    most: u32,
    // How many it has made, without those that a renumbering took out.
    made: u32,
    // When it has made as many, it is looked whether many of them are dropped.
    look_at: u32,
    // The channel's number of each handle, by the number here, once the two may differ. A handle
    // that is nobody's has none.
    numbers: Vec<u32>,
    // Whether handles may have been dropped before they had numbers of the channel's own.
    has_early: bool,
    // The sender by which the senders of other machines send. There is none while there are no
    // others, and once the channel is closed.
    sender: Option<u32>,
    // Whether that sender is nobody's handle, and only stands for others.
    is_sender_stand_in: bool,
    // The receiver that new ones are cloned from, if the machine was opened when the channel was
    // closed. It is nobody's handle.
    receiver: Option<u32>,
    // The weak sender that new ones are cloned from. It is nobody's handle.
    weak: Option<u32>,
    // How many calls nobody has made, since it was last asked. They have stamps of their own.
    by_nobody: u64,
}

impl Machine {
    /// Wraps the first machine of a channel, which makes this many handles.
    #[inline]
    pub(super) fn first(core: Recording, most: u32) -> Machine {
        let (keeps_all, keeps_last) = (core.is_recorded(), core.keeps_last());
        let mut machine = Machine {
            core,
            most,
            made: 2,
            look_at: most,
            numbers: Vec::new(),
            has_early: true,
            sender: None,
            is_sender_stand_in: false,
            receiver: None,
            weak: None,
            by_nobody: 0,
        };
        if keeps_last {
            machine.look_when_full();
        } else if !keeps_all {
            machine.set_next_look();
        }
        machine
    }

    /// Opens a further machine of a channel. All of its handles stand for others.
    pub(super) fn further(spec: Spec<u64>, most: u32, is_closed: bool) -> Machine {
        let mut core = Recording::open_unrecorded(spec).unwrap_or_else(|_| no_memory());
        let weak = match spec {
            Spec::Broadcast(_) => Some(made(core.broadcast_downgrade(NOBODY, 0)).new_handle()),
            Spec::Watch(_) => None,
        };
        let (sender, receiver) = if !is_closed {
            (Some(0), None)
        } else {
            (None, Some(1))
        };
        drop_handle(&mut core, if is_closed { 0 } else { 1 });
        let made = 2 + u32::from(weak.is_some());
        let mut machine = Machine {
            core,
            most,
            made,
            look_at: most,
            numbers: vec![NO_NUMBER; made as usize],
            has_early: false,
            sender,
            is_sender_stand_in: !is_closed,
            receiver,
            weak,
            by_nobody: 0,
        };
        machine.set_next_look();
        machine
    }

    /// Finds a live sender, by which the senders of other machines send from now on.
    pub(super) fn find_sender(&mut self) {
        if self.core.senders() > 0 {
            let core = &mut self.core;
            self.sender = (0..MOST_HANDLES).find(|handle| is_sender(core, *handle));
        }
    }

    /// How many handles it has made, without those that a renumbering took out.
    pub(super) fn made(&self) -> u32 {
        self.made
    }

    /// Whether it can make a handle, and needn't be looked at before.
    #[inline]
    pub(super) fn has_room(&self) -> bool {
        self.made < self.look_at
    }

    /// Whether it can make a handle now, or once its dropped ones are taken out.
    pub(super) fn may_have_room(&self) -> bool {
        self.made < self.most || self.has_many_dropped()
    }

    /// Whether it has what creates handles for those of other machines, of a channel that is closed
    /// or isn't.
    pub(super) fn serves(&self, is_closed: bool) -> bool {
        if is_closed {
            self.receiver.is_some()
        } else {
            self.sender.is_some()
        }
    }

    /// Makes the weak sender that new ones are cloned from, if it is a broadcast that has none.
    /// Returns whether there is room for a handle then.
    pub(super) fn make_weak(&mut self) -> bool {
        if self.weak.is_some() || matches!(self.core.spec(), Spec::Watch(_)) {
            return true;
        }
        let reply = self.by_sender(|core, sender| core.broadcast_downgrade(NOBODY, sender));
        let Reply::New(weak) = self.count_made(reply) else {
            return false;
        };
        self.weak = Some(weak as u32);
        self.by_nobody += 1;
        self.add_number(NO_NUMBER);
        self.has_room() || self.set_next_look()
    }

    /// Drops the handles that stand for those of other machines, since there are no others.
    pub(super) fn stand_alone(&mut self) {
        self.drop_sender();
        if let Some(weak) = self.weak.take() {
            drop_handle(&mut self.core, weak);
            self.by_nobody += 1;
        }
    }

    /// Whether at least a quarter of the handles that it can make aren't alive.
    pub(super) fn has_much_room(&self) -> bool {
        self.alive() <= self.most / 4 * 3
    }

    /// Returns the channel's number of a handle of this machine.
    pub(super) fn number(&self, handle: u32) -> u32 {
        self.numbers.get(handle as usize).copied().unwrap_or(handle)
    }

    /// Returns how many calls nobody has made since this was last asked.
    pub(super) fn take_by_nobody(&mut self) -> u64 {
        mem::take(&mut self.by_nobody)
    }

    /// Sets when it is looked next whether most handles are dropped: when it has made twice as
    /// many. Returns whether it can make one before.
    pub(super) fn set_next_look(&mut self) -> bool {
        let least = (self.most / FIRST_LOOK).max(self.made + 1);
        self.look_at = (2 * self.made).max(least).min(self.most);
        self.has_room()
    }

    /// Says that the last calls of the channel are kept alone. Each chunk of these looks for
    /// dropped handles, so a call that creates one looks for them only where the machine is full.
    pub(super) fn look_when_full(&mut self) {
        // The lead of a journal may need two.
        self.most = self.most.min(MOST_HANDLES - 2);
        self.look_at = self.most;
    }

    /// Whether so many handles are dropped that they are to be taken out with a chunk of the last
    /// calls: half of them, and not a few. Where the machine has little room for handles of the
    /// next chunk, which has `chunk` calls, some of them are enough.
    pub(super) fn has_dropped_for_chunk(&self, chunk: usize) -> bool {
        let dropped = self.dropped();
        let is_half = dropped as usize >= chunk.min(LEAST_DROPPED) && dropped >= self.made / 2;
        let is_nearly_full = (self.most - self.made) as usize <= chunk;
        is_half || is_nearly_full && dropped > self.most / FEW
    }

    /// How many of the handles that it has made are dropped.
    fn dropped(&self) -> u32 {
        self.made - self.alive()
    }

    /// How many of them are alive, those that stand for others included.
    pub(super) fn alive(&self) -> u32 {
        let core = &self.core;
        (core.senders() + core.weak_senders() + core.receivers()) as u32
    }

    /// Whether so many handles are dropped that a renumbering takes no longer than it took to make
    /// them: half of them. In a full machine some of them are enough.
    pub(super) fn has_many_dropped(&self) -> bool {
        let dropped = self.dropped();
        dropped >= self.made.div_ceil(2) || self.made == self.most && dropped > self.most / FEW
    }

    /// Reserves memory for the channel's numbers of these handles.
    pub(super) fn reserve_numbers(&mut self) -> Result<(), TryReserveError> {
        self.numbers.try_reserve(self.made as usize)
    }

    /// Says that the channel's numbers of these handles may differ from those here.
    pub(super) fn begin_numbers(&mut self) {
        self.numbers.extend(0..self.made);
    }

    /// Whether the channel's numbers of all handles are those here.
    pub(super) fn has_same_numbers(&self) -> bool {
        (0..)
            .zip(&self.numbers)
            .all(|(handle, number)| handle == *number)
    }

    /// Says that the channel's numbers of these handles are those here, from now on.
    pub(super) fn end_numbers(&mut self) {
        self.numbers.clear();
        self.has_early = true;
    }

    /// Moves the channel's numbers of the handles that are alive, since the dropped ones were taken
    /// out. `before` has the numbers that these had here. The machine has this number.
    pub(super) fn renumber(&mut self, number: usize, before: &[u32], numbers: &mut Numbers) {
        if self.has_early {
            self.remove_early(before, numbers);
        }
        self.move_numbers(number, before, numbers);
        let now = |handle: u32| {
            let now = before.binary_search(&handle);
            now.expect("a handle that is alive") as u32
        };
        self.sender = self.sender.map(now);
        self.receiver = self.receiver.map(now);
        self.weak = self.weak.map(now);
    }

    /// Says that the dropped handles were taken out, and this many are alive.
    pub(super) fn set_alive(&mut self, alive: u32) {
        self.made = alive;
        self.set_next_look();
    }

    /// Moves the channel's numbers to the new places of their handles. `before` has the numbers
    /// that these had here.
    fn move_numbers(&mut self, machine: usize, before: &[u32], numbers: &mut Numbers) {
        for (handle, old) in (0..).zip(before) {
            let number = self.numbers[*old as usize];
            self.numbers[handle as usize] = number;
            if number != NO_NUMBER {
                numbers.set_place(number, Place::new(machine, handle));
            }
        }
        self.numbers.truncate(before.len());
    }

    /// Removes the channel's numbers of handles that were dropped before they had any. `alive` has
    /// those that are alive, in their order.
    fn remove_early(&mut self, alive: &[u32], numbers: &mut Numbers) {
        let mut alive = alive.iter().copied().peekable();
        for handle in 0..self.made {
            let number = self.numbers[handle as usize];
            if alive.next_if_eq(&handle).is_none() && number != NO_NUMBER {
                numbers.remove(number);
            }
        }
        self.has_early = false;
    }

    /// Notes that it has made a handle to which the channel gives this number.
    #[inline]
    pub(super) fn add_number(&mut self, number: u32) {
        self.numbers.push(number);
    }

    /// Notes that a handle is nobody's from now on: it is dropped, or only stands for others.
    #[inline]
    pub(super) fn remove_number(&mut self, handle: u32) {
        self.numbers[handle as usize] = NO_NUMBER;
    }

    /// Counts the handle that a call has created, if it has.
    #[inline]
    pub(super) fn count_made(&mut self, reply: Reply) -> Reply {
        self.made += u32::from(matches!(reply, Reply::New(_)));
        reply
    }

    /// How many senders are alive, without the one that only stands for others.
    pub(super) fn senders(&mut self) -> u64 {
        self.core.senders() - u64::from(self.is_sender_stand_in)
    }

    /// How many weak senders are alive, without the one that only stands for others.
    pub(super) fn weak_senders(&mut self) -> u64 {
        self.core.weak_senders() - u64::from(self.weak.is_some())
    }

    /// How many receivers are alive, without the one that only stands for others.
    pub(super) fn receivers(&mut self) -> u64 {
        self.core.receivers() - u64::from(self.receiver.is_some())
    }

    /// Whether no handle of this machine is alive, but those that stand for others.
    pub(super) fn is_unused(&mut self) -> bool {
        self.senders() == 0 && self.weak_senders() == 0 && self.receivers() == 0
    }

    /// Makes a call of a sender that stands for others.
    pub(super) fn by_sender(&mut self, call: impl FnOnce(&mut Recording, u32) -> Reply) -> Reply {
        let sender = self.sender.expect("a machine of an open channel");
        call(&mut self.core, sender)
    }

    /// Makes a call of a weak sender that stands for others.
    pub(super) fn by_weak(&mut self, call: impl FnOnce(&mut Recording, u32) -> Reply) -> Reply {
        let weak = self.weak.expect("a further machine of a broadcast");
        call(&mut self.core, weak)
    }

    /// Creates a receiver: by a sender, or by a receiver if the channel is closed.
    pub(super) fn receive(
        &mut self,
        subscribe: impl FnOnce(&mut Recording, u32) -> Reply,
        copy: impl FnOnce(&mut Recording, u32) -> Reply,
    ) -> Reply {
        match self.receiver {
            None => self.by_sender(subscribe),
            Some(receiver) => copy(&mut self.core, receiver),
        }
    }

    /// Drops a handle. If other senders send by it, it stays and stands for them.
    #[inline]
    pub(super) fn drop_handle(
        &mut self,
        handle: u32,
        drop: impl FnOnce(&mut Recording, u32) -> Reply,
    ) -> Reply {
        if self.sender == Some(handle) && !self.is_sender_stand_in {
            self.is_sender_stand_in = true;
            return Reply::Dropped;
        }
        drop(&mut self.core, handle)
    }

    /// Drops the sender that stands for others, since the channel is closed or there are no others.
    pub(super) fn drop_sender(&mut self) {
        let sender = self.sender.take().filter(|_| self.is_sender_stand_in);
        if let Some(sender) = sender {
            drop_handle(&mut self.core, sender);
            self.by_nobody += 1;
        }
        self.is_sender_stand_in = false;
    }
}

/// Returns the reply of a call that another machine of the channel has made already, so this one
/// must not refuse it.
pub(super) fn made(reply: Reply) -> Reply {
    match reply {
        Reply::NoMemory | Reply::JournalFull => no_memory(),
        reply => reply,
    }
}

/// Ends the process, as `std` does where memory is refused.
#[cold]
fn no_memory() -> ! {
    handle_alloc_error(Layout::new::<Recording>())
}
