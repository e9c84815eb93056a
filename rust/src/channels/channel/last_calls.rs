//! What is known of the last calls of a channel, beside the core: where and by whom each was made,
//! and when. As the core does, it keeps two chunks, and drops the older one whole.

use super::CallSite;
use super::chunk_size::ChunkSize;
use super::locations::Locations;
use super::made_handles::{MadeHandles, PastHandles};
use super::sharing_callers::SharingCallers;
use crate::channels::backend::Actor;
use std::collections::VecDeque;
use std::mem;
use std::sync::Arc;
use yovanelum_core::lists::reserved;
use yovanelum_core::source::rw_law::NoMemory;
use yovanelum_record::clock::{Clock, Moment, Times};
use yovanelum_record::listed::{IntoList, PushAll};
use yovanelum_record::sorting::sort_by_key;

/// The time is noted at each chunk's first call, and then at one call in this number.
const CALLS_BETWEEN_TIMES: usize = 1024;

/// The number that the actors of a flight recorder share who come once all others are given.
const SHARED: Actor = Actor::LAST_CALLER;

/// The last calls of a channel.
pub(crate) struct LastCalls {
    // How many calls a chunk has.
    size: ChunkSize,
    // How many values the channel retains.
    capacity: usize,
    // How many calls were made before those of the chunks.
    before: u64,
    older: Chunk,
    newer: Chunk,
    // Until the newer chunk has as many calls, no chunk begins or ends, and the time isn't noted.
    plain_until: usize,
    // The texts of values that were sent before, and may be retained.
    retained: VecDeque<(u64, Arc<str>)>,
    pub(super) handles: MadeHandles,
    // The handles of before the table was numbered anew, where calls are kept by their previous
    // numbers.
    past: PastHandles,
    clock: Clock,
    // Whether the recorder is a flight recorder.
    is_of_flight: bool,
    // How many values were sent before the last call.
    sent: u64,
    // Who has made that call.
    last_actor: Actor,
}

/// A send of a value: where it was called, and by whom.
pub(crate) struct SendMade {
    pub(crate) called_at: CallSite,
    pub(crate) actor: Actor,
    /// The caller's name, where the actor's number is one that several share.
    pub(crate) sharing: Option<Arc<str>>,
}

/// The calls of a chunk, and what is dropped with them.
#[derive(Default)]
struct Chunk {
    sites: Vec<CallSite>,
    // A bit for each actor that made one of them.
    actors: u64,
    // How many calls were made before each that has sent a value, and by whom it was.
    sends: Vec<(u32, Actor)>,
    sharing: SharingCallers,
    // How many calls were made before each that waited, and before each drop that was made by the
    // drop of a named future.
    waited: Vec<u64>,
    cancelled: Vec<u64>,
    texts: Vec<TextOfValue>,
    // The names of handles that were dropped, by how many handles were created before.
    names: Vec<(u64, String)>,
    moments: Vec<Moment>,
}

struct TextOfValue {
    number: u64,
    text: Arc<str>,
    is_sent: bool,
}

impl Chunk {
    fn clear(&mut self) {
        self.sites.clear();
        self.actors = 0;
        self.sends.clear();
        self.sharing.clear();
        self.waited.clear();
        self.cancelled.clear();
        self.texts.clear();
        self.names.clear();
        self.moments.clear();
    }
}

/// A copy of what is known of the last calls.
pub(crate) struct LastCallsCopy {
    /// How many calls were made in all.
    pub(crate) count: u64,
    /// Where the last ones of them were made.
    pub(crate) sites: Vec<CallSite>,
    /// How many calls were made before each that waited.
    pub(crate) waited: Vec<u64>,
    /// The same of each drop that was made by the drop of a named future.
    pub(crate) cancelled: Vec<u64>,
    /// The texts of values, by their numbers.
    pub(crate) texts: Vec<(u64, Arc<str>)>,
    /// The names of dropped handles, by how many were created before.
    pub(crate) names: Vec<(u64, String)>,
    pub(crate) handles: MadeHandles,
    pub(crate) moments: Vec<Moment>,
    /// When the call that waits and has begun last has begun to.
    pub(crate) last_wait: Option<Moment>,
    /// The callers who share a number, by how many calls were made before each of theirs.
    pub(crate) sharing: Vec<(u64, Arc<str>)>,
}

impl LastCalls {
    /// Those of a channel without calls, by chunks of this size. The channel retains `capacity`
    /// values.
    pub(super) fn new(size: ChunkSize, capacity: usize, times: Times) -> LastCalls {
        LastCalls {
            size,
            capacity,
            before: 0,
            older: Chunk::default(),
            newer: Chunk::default(),
            plain_until: 0,
            retained: VecDeque::new(),
            handles: MadeHandles::default(),
            past: PastHandles::default(),
            clock: Clock::new(times),
            is_of_flight: false,
            sent: 0,
            last_actor: Actor::FIRST,
        }
    }

    /// Says whether the recorder is a flight recorder, and how many values were sent so far.
    pub(super) fn begin(&mut self, is_of_flight: bool, sent: u64) {
        (self.is_of_flight, self.sent) = (is_of_flight, sent);
    }

    /// Begins after `before` calls, with these handles. The core keeps later calls by the numbers
    /// that they have.
    pub(super) fn begin_again(&mut self, before: u64, handles: MadeHandles) {
        let numbers: Vec<u32> = (0..handles.len()).listed();
        (self.before, self.handles) = (before, handles);
        self.renumber(&numbers);
    }

    /// Notes how many values were sent by the calls so far: if they are more than before the last
    /// one, that one was a send.
    #[inline]
    pub(super) fn note_sent(&mut self, sent: u64) {
        if sent > self.sent {
            self.sent = sent;
            if let Some(before) = self.newer.sites.len().checked_sub(1) {
                self.newer.sends.push((before as u32, self.last_actor));
            }
        }
    }

    /// Returns the first of the last `count` sends, if it is kept.
    pub(super) fn send_before_last(&self, count: u64) -> Option<SendMade> {
        let mut count = usize::try_from(count).ok()?;
        for chunk in &[&self.newer, &self.older] {
            let found = chunk.sends.len().checked_sub(count);
            if let Some((before, actor)) = found.and_then(|index| chunk.sends.get(index)) {
                return Some(SendMade {
                    called_at: chunk.sites[*before as usize],
                    actor: *actor,
                    sharing: chunk.sharing.name(*before).cloned(),
                });
            }
            count -= chunk.sends.len();
        }
        None
    }

    /// Adds all calls of a channel, of which these actors have made some, and its handles. What
    /// there is to say of the calls is added after them.
    pub(super) fn add_all(&mut self, locations: &Locations, actors: u64) {
        for site in locations.of_calls.iter() {
            if self.has_full_chunk() {
                self.turn();
            }
            self.newer.sites.push(*site);
        }
        self.older.actors = actors;
        for site in locations.of_handles.iter() {
            self.handles.add(*site);
        }
    }

    /// Notes which calls have waited, and which were drops by the drop of a named future.
    pub(super) fn add_indexes(&mut self, waited: &[u64], cancelled: &[u64]) {
        self.older.waited.extend(waited);
        self.older.cancelled.extend(cancelled);
    }

    /// How many calls were made in all.
    pub(super) fn count(&self) -> u64 {
        self.before + (self.older.sites.len() + self.newer.sites.len()) as u64
    }

    /// Returns how many calls were made before the last one, if there was one.
    pub(super) fn last(&self) -> Option<u64> {
        self.count().checked_sub(1)
    }

    /// How many calls a chunk has.
    pub(super) fn chunk(&self) -> usize {
        self.size.now()
    }

    /// The same, with how many were asked for.
    pub(super) fn size(&mut self) -> &mut ChunkSize {
        &mut self.size
    }

    /// Whether the next call fills a chunk.
    #[inline]
    pub(super) fn fills_chunk(&self) -> bool {
        self.newer.sites.len() + 1 == self.chunk()
    }

    /// Whether the next call begins a chunk.
    #[inline]
    pub(super) fn has_full_chunk(&self) -> bool {
        self.newer.sites.len() >= self.chunk()
    }

    /// Whether the next call, by this actor, is added by [`add_plain`](LastCalls::add_plain): there
    /// is nothing else to note at it.
    #[inline(always)]
    pub(super) fn takes_plain(&self, actor: Actor) -> bool {
        self.newer.sites.len() < self.plain_until && actor != SHARED
    }

    /// Adds such a call, which is about to be made here.
    #[inline(always)]
    pub(super) fn add_plain(&mut self, called_at: CallSite, actor: Actor) {
        self.newer.sites.push(called_at);
        self.newer.actors |= actor.bit();
        self.last_actor = actor;
    }

    /// Adds a call that is about to be made here by this actor, and gets this stamp.
    pub(super) fn add(&mut self, called_at: CallSite, actor: Actor, stamp: u64) {
        if self.newer.sites.len() % CALLS_BETWEEN_TIMES == 0 {
            self.note_time(stamp);
        }
        if actor == SHARED && self.is_of_flight {
            self.newer.sharing.add(self.newer.sites.len());
        }
        self.add_plain(called_at, actor);
        let next_time = self.newer.sites.len().next_multiple_of(CALLS_BETWEEN_TIMES);
        // The last call of a chunk isn't plain, since its size is looked at then.
        self.plain_until = next_time.min(self.chunk() - 1);
    }

    /// Notes what time it is at a call with this stamp.
    #[cold]
    #[inline(never)]
    pub(super) fn note_time(&mut self, stamp: u64) {
        self.newer.moments.push_all(self.clock.moment(stamp));
    }

    /// The clocks of the recorder.
    pub(super) fn clock(&self) -> &Clock {
        &self.clock
    }

    /// Returns the times that are known of calls and these ones, in the order of their stamps.
    pub(super) fn times_with(&self, others: impl Iterator<Item = Moment>) -> Vec<Moment> {
        let mut times = [&self.older.moments[..], &self.newer.moments].concat();
        times.push_all(others);
        sort_by_key(&mut times, |time| (time.stamp, time.since_start));
        times
    }

    /// Keeps the time of one of the calls as that which was noted at it, unless there is one.
    pub(super) fn keep_time(&mut self, time: Moment) {
        let (older, newer) = (&mut self.older.moments, &mut self.newer.moments);
        // The time is noted at the first call of a chunk.
        let is_newer = newer.first().is_some_and(|first| first.stamp <= time.stamp);
        let times = if is_newer { newer } else { older };
        if let Err(index) = times.binary_search_by_key(&time.stamp, |known| known.stamp) {
            times.insert(index, time);
        }
    }

    /// Removes the call that was added last, since it wasn't made. Returns where it was to be.
    pub(super) fn remove_last(&mut self) -> CallSite {
        self.plain_until = 0;
        let site = self.newer.sites.pop().flatten();
        self.newer.sharing.remove_last(self.newer.sites.len());
        if self.newer.sites.len() % CALLS_BETWEEN_TIMES == 0 {
            self.newer.moments.pop();
        }
        site
    }

    /// Drops the older chunk, since the newer one is full.
    pub(super) fn turn(&mut self) {
        self.before += self.older.sites.len() as u64;
        self.retain_texts();
        self.older.clear();
        self.plain_until = 0;
        mem::swap(&mut self.older, &mut self.newer);
    }

    /// Keeps the texts of the older chunk's values that the channel may retain after it.
    fn retain_texts(&mut self) {
        let sent = self.older.texts.drain(..).filter(|text| text.is_sent);
        self.retained.extend(sent.map(|it| (it.number, it.text)));
        let too_many = self.retained.len().saturating_sub(self.capacity);
        self.retained.drain(..too_many);
    }

    /// Says that the handles of the table have other numbers now. `before` has the previous ones,
    /// by which the core keeps the calls so far.
    pub(super) fn renumber(&mut self, before: &[u32]) {
        self.past.renumber(&mut self.handles, before);
    }

    /// Returns the number by which the calls are kept, of a handle of the table with this number.
    /// `keeps_past` says whether they are kept by the previous numbers.
    pub(super) fn kept_number(&self, handle: u32, keeps_past: bool) -> u32 {
        if keeps_past {
            self.past.number(handle)
        } else {
            handle
        }
    }

    /// Notes that the last call waited.
    pub(super) fn note_waited(&mut self) {
        let last = self.last();
        self.newer.waited.push_all(last);
    }

    /// Notes that the last call was a drop by the drop of a named future.
    pub(super) fn note_cancelled(&mut self) {
        let last = self.last();
        self.newer.cancelled.push_all(last);
    }

    /// Notes the text of a value, which was sent unless there was no receiver.
    pub(super) fn add_text(&mut self, number: u64, text: String, is_sent: bool) {
        let text = text.into();
        self.newer.texts.push(TextOfValue {
            number,
            text,
            is_sent,
        });
    }

    /// Notes the name of a handle that the last call has dropped, before which `nth` others
    /// were created.
    pub(super) fn add_name(&mut self, nth: u64, name: String) {
        self.newer.names.push((nth, name));
    }

    /// Returns which actors have made the calls: a bit for each.
    pub(super) fn actors(&self) -> u64 {
        self.older.actors | self.newer.actors
    }

    /// Returns a copy, to be read while the channel is used. `keeps_past` says whether the calls
    /// are kept by the numbers that handles had before the last renumbering.
    pub(super) fn copy(&self, keeps_past: bool) -> Result<LastCallsCopy, NoMemory> {
        let (older, newer) = (&self.older, &self.newer);
        let count = self.retained.len() + older.texts.len() + newer.texts.len();
        let mut texts = reserved(count)?;
        texts.push_all(self.retained.iter().cloned());
        for chunk in &[older, newer] {
            texts.push_all(chunk.texts.iter().map(|it| (it.number, it.text.clone())));
        }
        Ok(LastCallsCopy {
            count: self.count(),
            sites: joined(&older.sites, &newer.sites)?,
            waited: joined(&older.waited, &newer.waited)?,
            cancelled: joined(&older.cancelled, &newer.cancelled)?,
            texts,
            names: joined(&older.names, &newer.names)?,
            handles: if keeps_past {
                self.past.with(&self.handles)?
            } else {
                self.handles.copy()?
            },
            moments: joined(&older.moments, &newer.moments)?,
            last_wait: None,
            sharing: self.sharing()?,
        })
    }

    /// Returns the callers who share a number, by how many calls were made before each of theirs.
    fn sharing(&self) -> Result<Vec<(u64, Arc<str>)>, NoMemory> {
        let newer = self.before + self.older.sites.len() as u64;
        let chunks = [(self.before, &self.older), (newer, &self.newer)];
        let count = chunks.iter().map(|(_, it)| it.sharing.calls().len()).sum();
        let mut sharing = reserved(count)?;
        for (first, chunk) in chunks {
            let calls = chunk.sharing.calls();
            sharing.push_all(calls.map(|(before, name)| (first + u64::from(before), name.clone())));
        }
        Ok(sharing)
    }
}

/// Copies two lists into one.
fn joined<T: Clone>(older: &[T], newer: &[T]) -> Result<Vec<T>, NoMemory> {
    let mut joined = reserved(older.len() + newer.len())?;
    joined.extend_from_slice(older);
    joined.extend_from_slice(newer);
    Ok(joined)
}

#[cfg(test)]
mod tests {
    use super::super::call_site;
    use super::*;

    fn calls(most: usize) -> LastCalls {
        LastCalls::new(ChunkSize::new(most), 2, Times::begin())
    }

    fn add(calls: &mut LastCalls, actor: usize) {
        if calls.has_full_chunk() {
            calls.turn();
        }
        let stamp = calls.count() + 1;
        calls.add(call_site(), Actor::of(actor), stamp);
    }

    #[test]
    fn a_chunk_is_dropped_with_all_that_is_known_of_its_calls() {
        let mut calls = calls(3);
        add(&mut calls, 5);
        calls.note_waited();
        calls.note_cancelled();
        calls.add_name(7, "gone".into());
        (0..5).for_each(|_| add(&mut calls, 6));
        let copy = calls.copy(false).unwrap();
        assert_eq!((copy.count, copy.sites.len()), (6, 6));
        assert_eq!((copy.waited, copy.cancelled), (vec![0], vec![0]));
        assert_eq!(copy.names, [(7, "gone".into())]);
        assert_eq!(calls.actors(), 1 << 5 | 1 << 6);
        add(&mut calls, 6);
        let copy = calls.copy(false).unwrap();
        assert_eq!((copy.count, copy.sites.len()), (7, 4));
        assert!(copy.waited.is_empty() && copy.cancelled.is_empty() && copy.names.is_empty());
        assert_eq!(calls.actors(), 1 << 6);
    }

    #[test]
    fn texts_stay_while_their_values_are_in_the_window_or_may_be_retained() {
        let mut calls = calls(2);
        for number in 0..8 {
            add(&mut calls, 0);
            // There was no receiver for each third value.
            calls.add_text(number, number.to_string(), number % 3 != 2);
        }
        let texts = calls.copy(false).unwrap().texts;
        let numbers: Vec<_> = texts.iter().map(|(number, _)| *number).collect();
        assert_eq!(numbers, [1, 3, 4, 5, 6, 7]);
    }

    #[test]
    fn a_call_that_is_not_made_leaves_nothing() {
        let mut calls = calls(2);
        for _ in 0..1000 {
            add(&mut calls, 0);
            calls.remove_last();
        }
        let copy = calls.copy(false).unwrap();
        assert_eq!(
            (copy.count, copy.sites.len(), copy.moments.len()),
            (0, 0, 0)
        );
    }
}
