//! How far the receivers of a broadcast had read at a place.

use super::Context;
use yovanelum_record::listed::IntoList;
use yovanelum_record::operation::Operation;
use yovanelum_record::reply::Reply;
use yovanelum_record::visible;

/// What a receiver had read.
#[derive(Clone, Copy, Default)]
struct ReadBy {
    // The index of the next value among those that were sent.
    next: usize,
    // The place of its last receive that returned a value or a lag, or 0.
    last: u64,
}

/// The values of a broadcast and what its receivers had read of them.
pub(super) struct ReadUpTo {
    // The places of the sends that reached somebody.
    sends: Vec<u64>,
    receivers: Vec<ReadBy>,
}

impl ReadUpTo {
    /// Passes over the entries of a channel up to a place.
    pub(super) fn of(context: &Context<'_>, channel: u32, up_to: u64) -> ReadUpTo {
        let mut reading = ReadUpTo {
            sends: vec![],
            receivers: vec![ReadBy::default(); 2],
        };
        let entries = (1..=up_to).map(|place| (place, context.run.entry(place)));
        for (place, entry) in entries.filter(|(_, entry)| entry.channel == channel) {
            match entry.reply {
                Reply::Sent(_) => reading.sends.push(place),
                // They are numbered in the order in which they are created.
                Reply::New(_) => reading.receivers.push(ReadBy {
                    next: reading.sends.len(),
                    last: 0,
                }),
                Reply::Value(_) => reading.advance(entry.handle, 1, place),
                Reply::Lagged(count) => reading.advance(entry.handle, count as usize, place),
                _ => {}
            }
        }
        reading
    }

    fn advance(&mut self, receiver: u32, count: usize, place: u64) {
        if let Some(read) = self.receivers.get_mut(receiver as usize) {
            read.next += count;
            read.last = place;
        }
    }

    /// Returns the places of the sends that a receiver had not read.
    pub(super) fn unread(&self, receiver: u32) -> &[u64] {
        let next = self.receivers.get(receiver as usize).map(|it| it.next);
        next.and_then(|next| self.sends.get(next..)).unwrap_or(&[])
    }

    /// Returns the place of a receiver's last receive, or 0.
    pub(super) fn last_receive(&self, receiver: u32) -> u64 {
        let read = self.receivers.get(receiver as usize);
        read.map_or(0, |it| it.last)
    }
}

/// A receiver that `resubscribe` has created, behind values that its original had not read.
pub(super) struct Skipped {
    /// The place of the call.
    pub(super) place: u64,
    pub(super) original: u32,
    /// How many values.
    pub(super) count: u64,
}

impl Skipped {
    /// As `resubscribe skipped two values that rx had not read (call 3)`.
    pub(super) fn text(&self, context: &Context<'_>, channel: u32) -> String {
        let original = context.naming.receiver(channel, self.original).short;
        let values = visible::values(self.count);
        let at = visible::call(self.place);
        format!("resubscribe skipped {values} that {original} had not read ({at})")
    }
}

/// Returns what `resubscribe` skipped when it created this receiver, if that had received nothing
/// before this place.
pub(super) fn skipped(
    context: &Context<'_>,
    (channel, receiver): (u32, u32),
    before: u64,
) -> Option<Skipped> {
    let place = context.history.channel(channel).handle(receiver)?.made;
    if place <= context.history.lead || !is_new(context, (channel, receiver), before) {
        return None;
    }
    let entry = context.run.entry(place);
    if entry.word != Operation::Resubscribe {
        return None;
    }
    let reading = ReadUpTo::of(context, channel, place - 1);
    let count = reading.unread(entry.handle).len() as u64;
    (count > 0).then_some(Skipped {
        place,
        original: entry.handle,
        count,
    })
}

/// Whether a receiver had received nothing before this place.
pub(super) fn is_new(context: &Context<'_>, (channel, receiver): (u32, u32), before: u64) -> bool {
    let reading = ReadUpTo::of(context, channel, before.saturating_sub(1));
    reading.last_receive(receiver) == 0
}

/// Returns the receivers of a channel that were there at a place.
pub(super) fn receivers_at(context: &Context<'_>, channel: u32, at: u64) -> Vec<u32> {
    let handles = context.history.channel(channel).handles();
    let there = handles.filter(|(_, it)| it.is_receiver && it.is_alive_at(at));
    there.map(|(number, _)| number).listed()
}

/// Returns the place of the last drop of a receiver before a place.
pub(super) fn last_drop(context: &Context<'_>, channel: u32, at: u64) -> Option<u64> {
    let mut last = context.history.lead;
    for (_, handle) in context.history.channel(channel).handles() {
        match handle.dropped {
            Some((place, _)) if handle.is_receiver && place < at => last = last.max(place),
            _ => {}
        }
    }
    (last > context.history.lead).then_some(last)
}
