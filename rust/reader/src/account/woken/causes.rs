//! What may have woken calls that wait. It is found for all of them in one pass over the entries,
//! since many may wait at the end of a long run.

use crate::account::history::{ChannelHistory, HandleHistory, History};
use yovanelum_record::journal::Run;
use yovanelum_record::listed::{IntoList, PushAll};
use yovanelum_record::numbered::NumberMap;
use yovanelum_record::sidecar::{Sidecar, WaitingCall};
use yovanelum_record::sorting::sort_by_key;

/// What may have woken calls on a channel, as places in their order.
struct ChannelCauses {
    /// The calls that sent a value, or changed it.
    sent: Vec<u64>,
    /// Where no sender was left.
    no_sender: Vec<u64>,
    /// Where no receiver was left.
    no_receiver: Vec<u64>,
}

/// What may have woken the calls of a run that wait, and where their handles were used.
pub(in super::super) struct Causes {
    channels: Vec<ChannelCauses>,
    // The calls by each handle with which a call waits, or waited.
    looks: NumberMap<(u32, u32), Vec<u64>>,
}

impl Causes {
    /// Passes over the entries of a run.
    pub(in super::super) fn of(run: &Run, names: &Sidecar, history: &History) -> Causes {
        let channels = 0..run.specs().len() as u32;
        let channels = channels.map(|channel| ChannelCauses::of(history.channel(channel)));
        let mut causes = Causes {
            channels: channels.listed(),
            looks: NumberMap::new(),
        };
        causes.look_for(&names.waiting);
        causes.look_for(&names.waited_at_failure);
        causes.look_for(&names.dropped_waits);
        for (place, entry) in run.entries() {
            if entry.reply.is_change() {
                causes.channels[entry.channel as usize].sent.push(place);
            }
            if let Some(looks) = causes.looks.get_mut(&(entry.channel, entry.handle)) {
                looks.push(place);
            }
        }
        causes
    }

    /// Has the calls be found by the handles of these that wait.
    fn look_for(&mut self, waits: &[WaitingCall]) {
        for call in waits {
            let handle = (call.channel as u32, call.handle as u32);
            self.looks.insert(handle, vec![]);
        }
    }

    fn channel(&self, channel: u32) -> &ChannelCauses {
        &self.channels[channel as usize]
    }

    /// Returns the first call between two places that sent a value to a channel, or changed it.
    pub(super) fn first_sent(&self, channel: u32, between: (u64, u64)) -> Option<u64> {
        first(&self.channel(channel).sent, between)
    }

    /// Returns the last one.
    pub(in super::super) fn last_sent(&self, channel: u32, between: (u64, u64)) -> Option<u64> {
        last(&self.channel(channel).sent, between)
    }

    /// Returns the first place between two at which a channel had no sender any more.
    pub(super) fn no_sender(&self, channel: u32, between: (u64, u64)) -> Option<u64> {
        first(&self.channel(channel).no_sender, between)
    }

    /// Returns the first place between two at which a channel had no receiver any more.
    pub(super) fn no_receiver(&self, channel: u32, between: (u64, u64)) -> Option<u64> {
        first(&self.channel(channel).no_receiver, between)
    }

    /// Returns the last call between two places by the handle of a call that waits.
    pub(super) fn last_look(&self, handle: (u32, u32), between: (u64, u64)) -> Option<u64> {
        last(self.looks.get(&handle)?, between)
    }
}

impl ChannelCauses {
    fn of(history: &ChannelHistory) -> ChannelCauses {
        ChannelCauses {
            sent: vec![],
            no_sender: none_left(history, |handle| !handle.is_receiver && !handle.is_weak),
            no_receiver: none_left(history, |handle| handle.is_receiver),
        }
    }
}

/// Returns the places at which none of these handles of a channel was alive any more.
fn none_left(history: &ChannelHistory, are_meant: fn(&HandleHistory) -> bool) -> Vec<u64> {
    let (mut alive, mut places) = (0, vec![]);
    for (place, change) in &changes(history, are_meant) {
        alive += change;
        if alive == 0 {
            places.push(*place);
        }
    }
    places
}

/// Returns where there is one more of these handles, or one less, in the order of the places.
fn changes(history: &ChannelHistory, are_meant: fn(&HandleHistory) -> bool) -> Vec<(u64, i64)> {
    let mut changes = vec![];
    for (_, handle) in history.handles() {
        if are_meant(handle) {
            changes.push((handle.made, 1));
            changes.push_all(handle.dropped.map(|(place, _)| (place, -1)));
        }
    }
    sort_by_key(&mut changes, |change| *change);
    changes
}

/// Returns the first of these places that is behind one place, and at most the other.
fn first(places: &[u64], (after, until): (u64, u64)) -> Option<u64> {
    let index = places.partition_point(|place| *place <= after);
    let place = places.get(index).copied();
    place.filter(|place| *place <= until)
}

/// Returns the last of them.
fn last(places: &[u64], (after, until): (u64, u64)) -> Option<u64> {
    let count = places.partition_point(|place| *place <= until);
    let place = places[..count].last().copied();
    place.filter(|place| *place > after)
}
