//! Which handles of a run are receivers, and which actors used them. It passes over the entries
//! once. What a window's lead has is none of what anybody did.

use yovanelum_record::journal::{Run, RunEntry};
use yovanelum_record::listed::IntoList;
use yovanelum_record::operation::{CallSet, Kind, Operation};
use yovanelum_record::reply::Reply;
use yovanelum_record::sidecar::Sidecar;

/// A handle of a channel.
pub(super) struct HandleHistory {
    pub(super) is_receiver: bool,
    pub(super) is_weak: bool,
    /// The place at which it was created, or 0.
    pub(super) made: u64,
    /// The place at which it was dropped, and who dropped it.
    pub(super) dropped: Option<(u64, u32)>,
    /// The place of its last call that isn't its drop, or 0.
    pub(super) last_use: u64,
    /// The actor that received by it last.
    pub(super) last_user: Option<u32>,
    /// How many changes of a watch it learned of: by a look, by a mark, or since it was told.
    pub(super) learned: u64,
    // The number of the last change that it learned of, or that was there before it.
    learned_of: u64,
    /// The changes of a watch that it marked as seen by `mark_unchanged`, and never learned of.
    pub(super) dismissed: Dismissed,
    /// Whether it asked for a new version of a watch.
    pub(super) awaits: bool,
    /// Whether it looked at the version of a watch with which the window begins, while that was the
    /// current one.
    pub(super) looked_first: bool,
    /// Whether it marked that version then.
    pub(super) marked_first: bool,
}

/// The changes of a watch that a receiver marked as seen by `mark_unchanged`, without a look: it
/// isn't told by that call that there is one.
#[derive(Clone, Copy, Default)]
pub(super) struct Dismissed {
    pub(super) count: u64,
    /// The last of them.
    pub(super) last: Option<Dismissal>,
    // What was the last one before it.
    before: Option<Dismissal>,
}

/// A change that a receiver marked as seen without a look.
#[derive(Clone, Copy)]
pub(super) struct Dismissal {
    /// The place of the change.
    pub(super) change: u64,
    /// The place of the call that marked it.
    pub(super) mark: u64,
    // The number of the change.
    number: u64,
}

/// What happened on a channel.
pub(super) struct ChannelHistory {
    handles: Vec<HandleHistory>,
    // How often the value was changed, or how many values were sent.
    changes: u64,
    /// The place of the last call that sent a value, or changed it.
    pub(super) last_sent: u64,
    // Whether the value of a watch was changed, behind the lead.
    is_changed: bool,
    /// The sends that reached nobody: how many, and the places of the first and the last.
    pub(super) unreached: Option<Unreached>,
}

/// The sends that reached nobody.
#[derive(Clone, Copy, Debug, PartialEq, Eq)]
pub(super) struct Unreached {
    pub(super) count: u64,
    pub(super) first: u64,
    pub(super) last: u64,
}

/// What an actor did.
#[derive(Clone, Default)]
struct ActorHistory {
    // The receiver that it received by first, with its channel.
    reads_with: Option<(u32, u32)>,
    reads_with_several: bool,
    // A bit for each channel on which it used a sender. A run has 64 channels at most.
    sends_on: u64,
    // The place of its last call that isn't a drop, or 0.
    last_call: u64,
    // The places of the calls that told it of a loss.
    told: Vec<u64>,
}

/// What happened in a run.
pub(super) struct History {
    /// How many entries lead to the window.
    pub(super) lead: u64,
    channels: Vec<ChannelHistory>,
    actors: Vec<ActorHistory>,
    // For the entry of each place, how many entries of the same channel are before it.
    indexes: Vec<u32>,
}

impl History {
    /// Passes over the entries of a run. The names say which calls are those of `wait_for`.
    pub(super) fn of(run: &Run, names: &Sidecar) -> History {
        let mut history = History {
            lead: names.lead(),
            channels: run.specs().iter().map(|_| ChannelHistory::new()).listed(),
            actors: vec![],
            indexes: Vec::with_capacity(run.len() as usize),
        };
        let mut counts = vec![0; run.specs().len()];
        for (place, mut entry) in run.entries() {
            let count = &mut counts[entry.channel as usize];
            if entry.word == Operation::Update && names.matching.is_waited(entry.channel, *count) {
                entry.word = entry.word.marked();
            }
            history.indexes.push(*count);
            *count += 1;
            history.note(place, &entry);
            if place == history.lead {
                history.end_lead();
            }
        }
        history
    }

    /// What the lead changes is no change of the run.
    fn end_lead(&mut self) {
        for channel in &mut self.channels {
            for handle in &mut channel.handles {
                handle.learned_of = channel.changes;
            }
        }
    }

    fn note(&mut self, place: u64, entry: &RunEntry) {
        let channel = &mut self.channels[entry.channel as usize];
        channel.note_made(place, entry);
        if place <= self.lead {
            return;
        }
        channel.note(place, entry);
        let receives = channel.is_receive(entry);
        let sends = channel.is_sender(entry.handle) && entry.word != Operation::Drop;
        let number = entry.actor as usize;
        if self.actors.len() <= number {
            self.actors.resize(number + 1, ActorHistory::default());
        }
        self.actors[number].note(place, entry, receives, sends);
    }

    pub(super) fn channel(&self, channel: u32) -> &ChannelHistory {
        &self.channels[channel as usize]
    }

    /// How many calls were made.
    pub(super) fn calls(&self) -> u64 {
        self.indexes.len() as u64 - self.lead
    }

    /// The first place worth a look: 0, or of a window the first one behind its lead.
    pub(super) fn first_place(&self) -> u64 {
        match self.lead {
            0 => 0,
            lead => (lead + 1).min(self.indexes.len() as u64),
        }
    }

    /// How many entries of the same channel are before the entry that led to this place.
    pub(super) fn index_on_channel(&self, place: u64) -> usize {
        self.indexes[place as usize - 1] as usize
    }

    /// How many entries the channel with the most has.
    pub(super) fn most_entries(&self) -> u64 {
        self.indexes
            .iter()
            .max()
            .map_or(0, |most| u64::from(*most) + 1)
    }

    /// The place of the last call of an actor that isn't a drop, or 0.
    pub(super) fn last_call(&self, actor: u64) -> u64 {
        self.actor(actor).map_or(0, |actor| actor.last_call)
    }

    /// The place up to this one of the last call that returned `lagged` to an actor.
    pub(super) fn last_told(&self, actor: u64, up_to: u64) -> Option<u64> {
        let told = &self.actor(actor)?.told;
        let count = told.partition_point(|place| *place <= up_to);
        told[..count].last().copied()
    }

    fn actor(&self, actor: u64) -> Option<&ActorHistory> {
        self.actors.get(usize::try_from(actor).ok()?)
    }

    /// Returns the actor that received by a receiver last, if it received by no other one and sent
    /// nothing on that channel.
    pub(super) fn reader(&self, channel: u32, receiver: u32) -> Option<u32> {
        let user = self.channel(channel).handle(receiver)?.last_user?;
        let actor = &self.actors[user as usize];
        let is_sender = actor.sends_on >> channel & 1 == 1;
        (!actor.reads_with_several && !is_sender).then_some(user)
    }
}

impl ActorHistory {
    fn note(&mut self, place: u64, entry: &RunEntry, receives: bool, sends: bool) {
        if entry.word != Operation::Drop {
            self.last_call = place;
        }
        if matches!(entry.reply, Reply::Lagged(_)) {
            self.told.push(place);
        }
        if receives {
            let receiver = (entry.channel, entry.handle);
            let first = *self.reads_with.get_or_insert(receiver);
            self.reads_with_several |= first != receiver;
        } else if sends {
            self.sends_on |= 1 << entry.channel;
        }
    }
}

impl HandleHistory {
    fn new(is_receiver: bool, made: u64, learned_of: u64) -> HandleHistory {
        HandleHistory {
            is_receiver,
            is_weak: false,
            made,
            dropped: None,
            last_use: 0,
            last_user: None,
            learned: 0,
            learned_of,
            dismissed: Dismissed::default(),
            awaits: false,
            looked_first: false,
            marked_first: false,
        }
    }

    /// Notes that a receiver of a watch learned of the current change, if it did, or that it only
    /// marked it. `change` has the place of the change and its number.
    fn note_learned(&mut self, place: u64, entry: &RunEntry, (change, number): (u64, u64)) {
        let has_learned = match entry.reply {
            Reply::Value(_) | Reply::Done => entry.word != Operation::MarkChanged,
            Reply::Flag(flag) => entry.word == Operation::HasChanged && flag != 0,
            _ => false,
        };
        if !has_learned {
            return;
        }
        let is_new = self.learned_of < number;
        self.learned += u64::from(is_new);
        self.learned_of = self.learned_of.max(number);
        if entry.word != Operation::MarkUnchanged {
            self.dismissed.take_back(number);
        } else if is_new {
            let mark = place;
            self.dismissed.add(Dismissal {
                change,
                mark,
                number,
            });
        }
    }

    /// Whether the handle was there at a place.
    pub(super) fn is_alive_at(&self, place: u64) -> bool {
        self.made <= place && self.dropped.is_none_or(|(dropped, _)| dropped > place)
    }
}

impl Dismissed {
    fn add(&mut self, dismissal: Dismissal) {
        self.count += 1;
        self.before = self.last.replace(dismissal);
    }

    /// Takes the change with this number back, which is the current one: it was looked at after the
    /// mark.
    fn take_back(&mut self, number: u64) {
        if self.last.is_some_and(|last| last.number == number) {
            self.count -= 1;
            self.last = self.before.take();
        }
    }
}

impl ChannelHistory {
    fn new() -> ChannelHistory {
        ChannelHistory {
            handles: vec![
                HandleHistory::new(false, 0, 0),
                HandleHistory::new(true, 0, 0),
            ],
            changes: 0,
            last_sent: 0,
            is_changed: false,
            unreached: None,
        }
    }

    /// Notes what is created, changed and dropped, also in a lead.
    fn note_made(&mut self, place: u64, entry: &RunEntry) {
        match entry.reply {
            Reply::New(_) => {
                let kind = entry.word.makes();
                let is_receiver = kind == Some(Kind::Receiver);
                // What was changed before it didn't come to it, also where it's a clone that may
                // still look at it.
                let mut handle = HandleHistory::new(is_receiver, place, self.changes);
                handle.is_weak = kind == Some(Kind::WeakSender);
                self.handles.push(handle);
            }
            Reply::Dropped => {
                if let Some(handle) = self.handles.get_mut(entry.handle as usize) {
                    handle.dropped = Some((place, entry.actor));
                }
            }
            reply if reply.is_change() => {
                self.changes += 1;
                self.last_sent = place;
            }
            _ => {}
        }
    }

    fn note(&mut self, place: u64, entry: &RunEntry) {
        self.is_changed |= entry.reply.is_change();
        self.note_unreached(place, entry);
        let is_first = !self.is_changed;
        let is_receive = self.is_receive(entry);
        let (changes, last_sent) = (self.changes, self.last_sent);
        if let Some(handle) = self.handles.get_mut(entry.handle as usize) {
            let is_drop = entry.word == Operation::Drop;
            handle.last_use = if is_drop { handle.last_use } else { place };
            handle.note_learned(place, entry, (last_sent, changes));
            if is_receive {
                handle.last_user = Some(entry.actor);
                handle.awaits |= entry.word.is(CallSet::AWAITS);
            }
            if is_first {
                handle.looked_first |= matches!(entry.reply, Reply::Value(_));
                handle.marked_first |= entry.word.is(CallSet::MARKS)
                    && matches!(entry.reply, Reply::Value(_) | Reply::Done);
            }
        }
    }

    /// Notes a send that reached nobody.
    fn note_unreached(&mut self, place: u64, entry: &RunEntry) {
        if !matches!(entry.reply, Reply::NoReceivers(_)) {
            return;
        }
        let unreached = self.unreached.get_or_insert(Unreached {
            count: 0,
            first: place,
            last: place,
        });
        unreached.count += 1;
        unreached.last = place;
    }

    /// Returns the handles, by their numbers.
    pub(super) fn handles(&self) -> impl Iterator<Item = (u32, &HandleHistory)> {
        #[cfg(test)]
        yovanelum_record::steps::add(self.handles.len());
        (0..).zip(&self.handles)
    }

    /// Returns a handle that was created.
    pub(super) fn handle(&self, handle: u32) -> Option<&HandleHistory> {
        self.handles.get(handle as usize)
    }

    /// Whether an entry is a receive. One that was refused, as that by a handle which is gone, is
    /// none.
    fn is_receive(&self, entry: &RunEntry) -> bool {
        let handle = self.handle(entry.handle);
        let is_refused = matches!(entry.reply, Reply::Gone | Reply::Unknown | Reply::WrongKind);
        handle.is_some_and(|handle| handle.is_receiver)
            && entry.word.is(CallSet::RECEIVES)
            && !is_refused
    }

    pub(super) fn is_receiver(&self, handle: u32) -> bool {
        self.handle(handle).is_some_and(|handle| handle.is_receiver)
    }

    fn is_sender(&self, handle: u32) -> bool {
        self.handle(handle)
            .is_some_and(|handle| !handle.is_receiver)
    }
}
