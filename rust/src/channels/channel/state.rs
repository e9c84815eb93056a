//! A channel without its values, as its recorder shares it.

use super::CoreChannel;
use super::chunk_size::ChunkSize;
use super::last_calls::{LastCalls, SendMade};
use super::last_drops::DropStacks;
use super::locations::{CallSite, Locations};
use super::paused::PausedFlight;
use super::receivers::{Receivers, Slot};
use super::seldom::Seldom;
use super::waits::{ListedCall, ListedCalls, WaitPlace};
use crate::channels::actors::LastCaller;
use crate::channels::backend::{Actor, Recording, WakerList};
use crate::channels::handle::Kind;
use crate::channels::wait::{DroppedWait, Look, Pending, Wait, WaitFor};
use crate::channels::whereabouts::renews;
use std::alloc::{Layout, handle_alloc_error};
use std::fmt::Write;
use std::mem;
use std::task::Waker;
use yovanelum_core::large_pages::without_giving_back;
use yovanelum_core::shim::alloc::Global;
use yovanelum_core::source::rw_law::NoMemory;
use yovanelum_record::clock::{Times, now};
use yovanelum_record::listed::IntoList;
use yovanelum_record::numbered::NumberMap;
use yovanelum_record::sidecar::Maker;

/// How many calls that were dropped while they waited a channel keeps.
const MOST_DROPPED_WAITS: usize = 16;

/// What the lock of a channel guards: the core's channel and the futures that wait for it.
pub(crate) struct ChannelState {
    pub(crate) core: CoreChannel,
    pub(super) is_recorded: bool,
    // Whether all calls are recorded, and not the last ones alone.
    pub(super) keeps_all: bool,
    // Whether other channels use the recorder's clock, too.
    pub(crate) shares_clock: bool,
    // If the last ones alone are, what is known of them.
    pub(super) last_calls: Option<Box<LastCalls>>,
    // If they aren't for a time, since too many handles are alive.
    pub(super) paused: Option<Box<PausedFlight>>,
    // How many values were passed to the core, which is the number of the next one.
    pub(super) value_count: u64,
    // How many of these were not sent, since there was no receiver.
    pub(super) unsent_count: u64,
    // How many values the channel was opened with.
    opened_with: u64,
    pub(crate) made_at: CallSite,
    // Which actors have made the first of the calls that the core has all of: a bit for each
    // number, and how many calls these are.
    pub(super) actors: (u64, usize),
    // The receivers that are alive.
    pub(crate) receivers: Receivers,
    // Who has sent last, and where.
    pub(crate) last_send: LastCaller,
    // The stamp of that call, which says something while the channel is recorded alone.
    pub(super) sent_stamp: u64,
    // The futures that wait, each until a call wakes it, with its waker once that is cloned.
    pub(super) waiting: WakerList,
    // What is known of the calls that began to wait, each from its first poll to its end. Whether
    // one waits, `waiting` says.
    pub(super) waits: ListedCalls,
    // Of a watch, the looks at its value by their numbers. One that has ended stays until the next
    // look with its number.
    pub(super) looks: Vec<Look>,
    // What most channels don't have.
    pub(super) seldom: Option<Box<Seldom>>,
    // Where the last sender and the last receiver were dropped.
    pub(crate) last_drops: DropStacks,
    pub(crate) locations: Locations,
    // Who has made the channel, if it has a recorder.
    pub(crate) made_by: Option<Maker>,
}

impl ChannelState {
    /// Wraps a channel of the core that was opened with this many values.
    #[inline]
    pub(crate) fn new(core: Recording, value_count: u64, made_at: CallSite) -> ChannelState {
        let keeps_all = core.is_recorded();
        ChannelState {
            is_recorded: keeps_all || core.keeps_last(),
            keeps_all,
            core: CoreChannel::new(core),
            shares_clock: false,
            last_calls: None,
            paused: None,
            value_count,
            unsent_count: 0,
            opened_with: value_count,
            made_at,
            actors: (0, 0),
            receivers: Receivers::default(),
            last_send: LastCaller::default(),
            sent_stamp: 0,
            waiting: WakerList::new(),
            waits: ListedCalls::NONE,
            looks: Vec::new(),
            seldom: None,
            last_drops: DropStacks::NONE,
            locations: Locations::default(),
            made_by: None,
        }
    }

    /// Returns the index of the entry that the call before has left, if all calls are recorded.
    fn last_entry(&mut self) -> Option<u64> {
        if self.keeps_all {
            self.core.entries().checked_sub(1)
        } else {
            None
        }
    }

    /// Notes that the call before has waited, if it is recorded.
    pub(super) fn note_waited(&mut self) {
        match &mut self.last_calls {
            Some(last) => last.note_waited(),
            None => {
                if let Some(entry) = self.last_entry() {
                    self.seldom_mut().waited.push(entry);
                }
            }
        }
    }

    /// Notes that the call before was a drop by the drop of a named future, if it is recorded.
    pub(super) fn note_cancelled(&mut self) {
        match &mut self.last_calls {
            Some(last) => last.note_cancelled(),
            None => {
                if let Some(entry) = self.last_entry() {
                    self.seldom_mut().cancelled.push(entry);
                }
            }
        }
    }

    /// Removes what was stored for a call that then wasn't recorded. Returns where it was made.
    #[inline]
    pub(super) fn remove_location(&mut self) -> CallSite {
        if self.keeps_all {
            return self.locations.of_calls.pop();
        }
        if let Some(paused) = &mut self.paused {
            paused.remove_last();
        }
        self.last_calls.as_mut()?.remove_last()
    }

    /// Stores where a handle was made, if the journal names it. Handles are made in the order of
    /// their numbers.
    #[inline]
    pub(crate) fn store_making(&mut self, made_at: CallSite) {
        if self.keeps_all {
            self.locations.of_handles.push(made_at);
        } else if let Some(last) = &mut self.last_calls {
            last.handles.add(made_at);
        }
    }

    /// Names a handle.
    pub(crate) fn name_handle(&mut self, number: u32, name: &str) {
        let names = &mut self.seldom_mut().handle_names;
        names.insert(number.into(), name.to_string());
    }

    /// Removes the name of a handle that is dropped, unless the journal names it.
    #[inline]
    pub(super) fn remove_name(&mut self, number: u32) {
        if self.seldom.is_some() && number as usize >= self.locations.of_handles.len() {
            self.remove_name_now(number);
        }
    }

    #[cold]
    fn remove_name_now(&mut self, number: u32) {
        let name = self.seldom_mut().handle_names.remove(&number.into());
        if let (Some(last), Some(name)) = (&mut self.last_calls, name) {
            last.add_name(self.core.nth(number), name);
        }
    }

    /// Returns the name of the handle with this number, or its kind and how many handles the
    /// channel had created before it, which is its number in the journal.
    pub(crate) fn handle_name(&self, kind: Kind, number: u32) -> String {
        if let Some(name) = self.seldom().handle_names.get(&number.into()) {
            return name.clone();
        }
        let kind = match kind {
            Kind::Sender => "sender ",
            Kind::WeakSender => "weak sender ",
            Kind::Receiver => "receiver ",
        };
        // Each lag and each receiver of a snapshot has such a name, and `format!` takes longer.
        let mut name = String::with_capacity(16);
        name.push_str(kind);
        let _ = write!(name, "{}", self.core.nth(number));
        name
    }

    /// Returns the names of those handles that the journal names.
    pub(crate) fn names_in_journal(&self) -> NumberMap<u64, String> {
        let count = self.locations.of_handles.len() as u64;
        let named = self.seldom().handle_names.range(..count);
        named
            .map(|(number, name)| (*number, name.clone()))
            .collect()
    }

    /// Returns the name of the channel, or where it was made.
    pub(crate) fn name_or_place(&self) -> String {
        match (&self.seldom().name, self.made_at) {
            (Some(name), _) => name.clone(),
            (None, Some(at)) => ["channel at ", at.file(), ":", &at.line().to_string()].concat(),
            (None, None) => "channel".to_string(),
        }
    }

    /// How many values the receiver with this number has yet to receive: of a watch, 1 if it hasn't
    /// seen the value.
    pub(crate) fn unread(&mut self, number: u32) -> u64 {
        match self.core.capacity() {
            Some(_) => self.core.unread(number),
            None => u64::from(!self.core.seen(number)),
        }
    }

    /// How many values the receiver that is most behind has yet to receive.
    pub(crate) fn greatest_unread(&mut self) -> u64 {
        let numbers: Vec<_> = self
            .receivers
            .iter()
            .map(|receiver| receiver.number)
            .listed();
        let unread = numbers.into_iter().map(|number| self.unread(number));
        unread.max().unwrap_or_default()
    }

    /// How many values were sent.
    #[inline]
    pub(crate) fn sent_count(&self) -> u64 {
        self.value_count - self.opened_with - self.unsent_count
    }

    /// Returns what is known of the last calls, of what is known of all calls, which these actors
    /// have made.
    pub(super) fn noted(
        &self,
        size: ChunkSize,
        capacity: usize,
        times: Times,
        actors: u64,
    ) -> LastCalls {
        let mut last = LastCalls::new(size, capacity, times);
        last.add_all(&self.locations, actors);
        let seldom = self.seldom();
        last.add_indexes(&seldom.waited, &seldom.cancelled);
        for (number, text) in &seldom.texts {
            last.add_text(*number, text.clone(), true);
        }
        last
    }

    /// Ends recording: later calls leave no entry.
    pub(crate) fn end_recording(&mut self) {
        if mem::take(&mut self.is_recorded) {
            self.core.end();
            self.keeps_all = false;
            self.last_calls = None;
        }
    }

    /// Makes room for a further handle in a channel that keeps its last calls: if many of its
    /// handles are dropped, they are taken out. Returns whether there is room.
    pub(super) fn make_room_for_handles(&mut self) -> bool {
        let Some(last) = &mut self.last_calls else {
            return false;
        };
        if let Some(before) = self.core.renumber_last(None) {
            last.renumber(&before);
        }
        !self.core.has_named_all()
    }

    /// Adds the next call to the last ones, if nothing else is to be noted at it. Returns whether
    /// it has.
    #[inline(always)]
    pub(super) fn adds_plain(&mut self, actor: Actor, called_at: CallSite) -> bool {
        let sent = self.sent_count();
        match &mut self.last_calls {
            Some(last) if last.takes_plain(actor) => {
                last.note_sent(sent);
                last.add_plain(called_at, actor);
                true
            }
            _ => false,
        }
    }

    /// Notes whether the last call was a send, where the last ones alone are kept.
    #[inline]
    pub(super) fn note_last_send(&mut self) {
        let sent = self.sent_count();
        if let Some(last) = &mut self.last_calls {
            last.note_sent(sent);
        }
    }

    /// Returns the first of the last `count` sends, if it is kept.
    pub(crate) fn send_before_last(&mut self, count: u64) -> Option<SendMade> {
        if let Some(last) = &self.last_calls {
            return last.send_before_last(count);
        }
        if !self.keeps_all {
            return None;
        }
        let (before, actor) = self.core.recorded().send_before_last(count)?;
        Some(SendMade {
            called_at: self.locations.of_calls.get(before),
            actor,
            sharing: None,
        })
    }

    /// Whether the next one of the last calls fills a chunk.
    #[inline]
    pub(super) fn fills_chunk(&self) -> bool {
        let last = self.last_calls.as_ref();
        last.is_some_and(|last| last.fills_chunk())
    }

    /// Whether the next one of the last calls begins a chunk.
    #[inline]
    pub(super) fn has_full_chunk(&self) -> bool {
        let last = self.last_calls.as_ref();
        last.is_some_and(|last| last.has_full_chunk())
    }

    /// Before the call that fills a chunk of the last calls, which then copies what the channel
    /// retains and its handles: lets the chunk have as many calls as that is worth.
    #[cold]
    #[inline(never)]
    pub(super) fn resize_chunk(&mut self) {
        let values = self.sent_count().min(self.retained_capacity() as u64) as usize;
        let Some(last) = &mut self.last_calls else {
            return;
        };
        let due = last.size().due(values, self.core.live_in_chunk());
        if let Some(size) = due.and_then(|due| self.core.resize_chunks(due)) {
            last.size().set(size);
        }
    }

    /// Begins a chunk of the last calls, and drops the one before the last. If many handles are
    /// dropped, they are taken out.
    #[cold]
    #[inline(never)]
    pub(super) fn turn_chunks(&mut self) {
        let Some(last) = &mut self.last_calls else {
            return;
        };
        last.turn();
        // The lists that are forgotten are as long as those that are allocated then.
        let before = without_giving_back(|| {
            if self.core.forget_past() {
                return None;
            }
            self.core.renumber_last(Some(last.chunk()))
        });
        if let Some(before) = before {
            last.renumber(&before);
        }
    }

    /// Whether the channel is recorded, and has created as many handles as a journal names.
    #[inline]
    pub(super) fn names_no_more_handles(&self) -> bool {
        self.is_recorded && self.core.has_named_all()
    }

    /// Returns the numbers of actors that are needed: those of stored calls, of calls that began to
    /// wait, and of looks. Each is a bit.
    pub(crate) fn stored_actors(&mut self) -> u64 {
        let of_all = self.actors_of_all();
        let waits = self.waits.iter().map(|wait| wait.actor);
        let dropped = self.seldom().dropped_waits.iter().map(|it| it.wait.actor);
        let looks = self.looks.iter().map(|look| look.actor);
        waits
            .chain(dropped)
            .chain(looks)
            .fold(of_all, |all, actor| all | actor.bit())
            | self.last_calls.as_ref().map_or(0, |last| last.actors())
    }

    /// Returns which actors have made the calls that the core has all of: a bit for each number. A
    /// call that was looked at before isn't again.
    pub(super) fn actors_of_all(&mut self) -> u64 {
        let (known, count) = self.actors;
        let (new, all) = self.core.recorded().actors_after(count);
        self.actors = (known | new, all);
        known | new
    }

    /// Whether all senders, weak senders and receivers are dropped.
    pub(crate) fn is_dead(&mut self) -> bool {
        let core = &mut self.core;
        core.receivers() == 0 && core.senders() == 0 && core.weak_senders() == 0
    }

    /// Stores the text of a value, which was sent or wasn't, if its channel is recorded.
    #[cold]
    pub(super) fn store_text(&mut self, number: u64, text: String, is_sent: bool) {
        if let Some(last) = &mut self.last_calls {
            last.add_text(number, text, is_sent);
        } else if self.is_recorded {
            self.seldom_mut().texts.insert(number, text);
        }
    }

    /// Stores the text of a value that was sent before, if all calls are recorded.
    #[cold]
    pub(crate) fn store_late_text(&mut self, number: u64, text: String) {
        if self.is_recorded && self.keeps_all {
            self.seldom_mut().texts.insert(number, text);
        }
    }

    /// Stores the text of the value that the channel was opened with, if no other was passed to the
    /// core yet.
    pub(crate) fn store_first_text(&mut self, text: String) {
        if self.value_count == 1 {
            self.store_text(0, text, true);
        }
    }

    /// Notes that the last handle of this kind is dropped here, if all calls are recorded.
    #[cold]
    pub(super) fn note_last_drop(&mut self, kind: Kind) {
        if !self.is_recorded || !self.keeps_all {
            return;
        }
        if let Some(stack) = DropStacks::stack() {
            self.last_drops.note(kind, stack);
        }
    }

    /// Notes that a call is dropped while it waits, at this time of the recorder's clock.
    /// How long it waited isn't noted in a replay, or in a run that is explored, since they hold
    /// calls.
    pub(crate) fn note_dropped(&mut self, pending: &Pending, until: Option<u64>, is_held: bool) {
        let (Some(listed), Some(until)) = (pending.listed, until) else {
            return;
        };
        let Some(wait) = self.waits.get(listed).copied() else {
            return;
        };
        if self.is_recorded && self.keeps_all {
            let dropped = &mut self.seldom_mut().dropped_waits;
            if dropped.len() == MOST_DROPPED_WAITS {
                dropped.pop_front();
            }
            dropped.push_back(DroppedWait {
                wait,
                until,
                ended: if is_held { None } else { now() },
            });
        }
    }

    /// Ends the wait of a call, if it waits, and returns its waker, to be dropped while no lock is
    /// held.
    #[inline]
    pub(crate) fn end_wait(&mut self, wait_for: WaitFor, pending: &mut Pending) -> Option<Waker> {
        let listed = pending.listed.take()?;
        let ended = self.waits.remove(listed)?;
        self.receivers.end_wait(ended.slot, listed.place());
        self.waiting.leave(wait_for, ended.ticket?)?
    }

    /// Ends a call that was listed while it blocked its thread.
    pub(crate) fn end_blocked(&mut self, listed: ListedCall) {
        self.waits.remove(listed);
    }

    /// Whether a call is listed with a waker that wakes the same task as this one.
    #[inline]
    pub(crate) fn wakes(&self, wait_for: WaitFor, listed: ListedCall, waker: &Waker) -> bool {
        let ticket = self.waits.ticket(listed);
        let own = ticket.and_then(|ticket| self.waiting.waker(wait_for, ticket));
        matches!(own, Some(Some(own)) if renews(own, waker))
    }

    /// Lists a call, which is among those that wait, with its waker, or without one if that has yet
    /// to be cloned. One that is listed stays where it is. Returns a waker that nobody needs any
    /// more, to be dropped while no lock is held.
    #[inline]
    pub(crate) fn list_waker(
        &mut self,
        wait_for: WaitFor,
        listed: ListedCall,
        waker: Option<Waker>,
    ) -> Option<Waker> {
        let ticket = self.waits.ticket(listed);
        let ticket = ticket.filter(|ticket| self.waiting.waker(wait_for, *ticket).is_some());
        if ticket.is_some() {
            return self.set_waker(wait_for, listed, waker?).ok().flatten();
        }
        let ticket = self.waiting.begin(Global, wait_for, waker);
        let ticket = ticket.unwrap_or_else(|NoMemory| no_memory());
        let slot = self.waits.set_ticket(listed, ticket)?;
        let before = self.receivers.note_wait(slot, listed.place())?;
        if before == listed.place() {
            return None;
        }
        // It has begun another call, so its future before is gone, without a drop.
        self.end_at(before)
    }

    /// Has a call that is listed woken by this waker. Returns the one that it had, to be dropped
    /// while no lock is held, or this one if the call isn't listed any more.
    #[inline]
    pub(crate) fn set_waker(
        &mut self,
        wait_for: WaitFor,
        listed: ListedCall,
        waker: Waker,
    ) -> Result<Option<Waker>, Waker> {
        let Some(ticket) = self.waits.ticket(listed) else {
            return Err(waker);
        };
        let renewed = self.waiting.renew(wait_for, ticket, Some(waker));
        renewed.map_err(|back| back.expect("the waker that was given"))
    }

    /// Ends the wait of a receiver, if one is listed that has a waker: its future is gone, since
    /// the receiver makes another call or is dropped. Without a drop it is gone if it was
    /// forgotten. Returns its waker, to be dropped while no lock is held.
    #[cold]
    pub(crate) fn end_forgotten(&mut self, slot: Slot) -> Option<Waker> {
        let place = self.receivers.take_wait(slot)?;
        self.end_at(place)
    }

    fn end_at(&mut self, place: WaitPlace) -> Option<Waker> {
        let ended = self.waits.remove_at(place)?;
        self.waiting.leave(WaitFor::Value, ended.ticket?)?
    }
}

/// Ends the process, as `std` does where memory is refused.
#[cold]
fn no_memory() -> ! {
    handle_alloc_error(Layout::new::<Wait>())
}
