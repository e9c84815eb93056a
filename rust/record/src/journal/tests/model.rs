//! A model that only knows the definitions: it keeps the state of each place, and looks for
//! stretches, greatest numbers and versions there. It is quadratic, and shares no code with what it
//! judges.

use crate::journal::{Closing, Counts, LateReader, Loss, LossEnd, Totals};
use std::collections::BTreeMap;
use yovanelum_core::source::rw_recording::{BroadcastCounts, LossStart, WatchCounts};

/// A receiver, by its channel and its number.
type Name = (u32, u32);

/// What a receiver shows at a place.
#[derive(Clone, Copy, PartialEq)]
enum Seen {
    Broadcast { lag: u64, unread: u64 },
    Watch { mark: Option<u64> },
}

/// What the channels show at a place.
#[derive(Clone, Default)]
struct ModelState {
    // How many values were sent, or the version of a watch.
    counts: Vec<u64>,
    senders: Vec<Vec<u32>>,
    // Positions and marks.
    positions: BTreeMap<Name, u64>,
    marks: BTreeMap<Name, Option<u64>>,
}

/// An entry: its channel, the words of its call, and those of its reply.
struct ModelEntry<'a> {
    channel: u32,
    handle: u32,
    word: &'a str,
    reply: &'a str,
    number: u64,
    value: &'a str,
}

impl ModelEntry<'_> {
    fn of(line: &str) -> ModelEntry<'_> {
        let (call, reply) = line.split_once(" = ").unwrap();
        let call: Vec<_> = call.split(' ').collect();
        let (reply, number) = reply.split_once(' ').unwrap_or((reply, ""));
        ModelEntry {
            channel: call[2].parse().unwrap(),
            handle: call[4].parse().unwrap(),
            word: call[3],
            reply,
            number: number.parse().unwrap_or(0),
            value: number,
        }
    }
}

/// All that is found in a run, each list in the order that the core documents.
pub(super) struct Findings {
    pub(super) losses: Vec<Loss>,
    pub(super) starts: Vec<LossStart>,
    pub(super) totals: Vec<Totals>,
    pub(super) receipts: Vec<u64>,
    pub(super) closings: Vec<Closing>,
    pub(super) late: Vec<LateReader>,
}

/// A run with the state of each place.
pub(super) struct Model<'a> {
    // How many values each channel retains, or 0 of a watch.
    retained: Vec<u64>,
    entries: Vec<ModelEntry<'a>>,
    states: Vec<ModelState>,
}

impl Model<'_> {
    pub(super) fn of(text: &str) -> Model<'_> {
        let mut lines = text.lines().skip(1);
        let retained = lines.by_ref().take_while(|line| *line != "steps");
        let retained: Vec<_> = retained
            .map(|line| match line.split_once(' ').unwrap() {
                ("broadcast", capacity) => capacity.parse::<u64>().unwrap().next_power_of_two(),
                _ => 0,
            })
            .collect();
        let mut model = Model {
            entries: lines
                .take_while(|line| *line != "end")
                .map(ModelEntry::of)
                .collect(),
            states: vec![],
            retained,
        };
        model.play();
        model
    }

    fn play(&mut self) {
        let channels = self.retained.len();
        let mut state = ModelState {
            counts: vec![0; channels],
            senders: vec![vec![0]; channels],
            ..ModelState::default()
        };
        for channel in 0..channels as u32 {
            state.make_receiver((channel, 1), self.is_watch(channel));
        }
        self.states.push(state.clone());
        for entry in &self.entries {
            state.read(entry, self.retained[entry.channel as usize]);
            self.states.push(state.clone());
        }
    }

    fn is_watch(&self, channel: u32) -> bool {
        self.retained[channel as usize] == 0
    }

    fn seen(&self, (channel, receiver): Name, place: usize) -> Option<Seen> {
        let state = &self.states[place];
        if let Some(mark) = state.marks.get(&(channel, receiver)) {
            return Some(Seen::Watch { mark: *mark });
        }
        let sent = state.counts[channel as usize];
        let oldest = sent.saturating_sub(self.retained[channel as usize]);
        state
            .positions
            .get(&(channel, receiver))
            .map(|position| Seen::Broadcast {
                lag: oldest.saturating_sub(*position),
                unread: sent - position,
            })
    }

    /// The lag of a receiver at a place. A receiver that isn't there has none.
    fn lag(&self, name: Name, place: usize) -> u64 {
        match self.seen(name, place) {
            Some(Seen::Broadcast { lag, .. }) => lag,
            _ => 0,
        }
    }

    /// The receivers that are there at some place.
    fn receivers(&self) -> Vec<Name> {
        let each = self.states.iter();
        let each = each.flat_map(|state| state.positions.keys().chain(state.marks.keys()));
        let mut receivers: Vec<_> = each.copied().collect();
        receivers.sort_unstable();
        receivers.dedup();
        receivers
    }

    /// The longest stretches of places at which a receiver lags.
    fn losses(&self) -> Vec<Loss> {
        let last = self.entries.len();
        let mut losses = vec![];
        for name in self.receivers() {
            for from in 1..=last {
                if self.lag(name, from) == 0 || self.lag(name, from - 1) > 0 {
                    continue;
                }
                let stop = (from..=last).find(|place| self.lag(name, *place) == 0);
                let end = match stop.map(|place| (place, self.seen(name, place))) {
                    None => LossEnd::Open,
                    Some((place, Some(_))) => LossEnd::Told(place as u64),
                    Some((place, None)) => LossEnd::Dropped(place as u64),
                };
                losses.push(Loss {
                    channel: name.0,
                    receiver: name.1,
                    from: from as u64,
                    lost: self.lag(name, stop.unwrap_or(last + 1) - 1),
                    end,
                });
            }
        }
        losses.sort_by_key(|loss| (loss.from, loss.channel, loss.receiver));
        losses
    }

    /// The last place up to this one to which a call led that gave the receiver a value, or 0.
    fn last_given(&self, (channel, receiver): Name, to: usize) -> u64 {
        let given = self.entries[..to].iter().rposition(|entry| {
            (entry.channel, entry.handle, entry.reply) == (channel, receiver, "value")
        });
        given.map_or(0, |index| index as u64 + 1)
    }

    fn start(&self, loss: &Loss) -> LossStart {
        let (name, from) = ((loss.channel, loss.receiver), loss.from as usize);
        LossStart {
            first: self.states[from].positions[&name],
            received: self.last_given(name, from),
        }
    }

    /// How many values came to a receiver while it was there.
    pub(super) fn came_to(&self, name: Name) -> u64 {
        let places = 1..=self.entries.len();
        places.filter(|place| self.came(name, *place)).count() as u64
    }

    /// How many entries of a receiver are of this call, or of any, and have this reply.
    fn count(&self, (channel, receiver): Name, word: Option<&str>, reply: &str) -> u64 {
        let entries = self.entries.iter();
        let matching = entries.filter(|entry| {
            (entry.channel, entry.handle, entry.reply) == (channel, receiver, reply)
                && word.is_none_or(|word| entry.word == word)
        });
        matching.count() as u64
    }

    fn counts(&self, name: Name) -> Counts {
        let last = self.entries.len();
        if self.is_watch(name.0) {
            return Counts::Watch(WatchCounts {
                changes: self.count(name, Some("changed"), "done"),
                missed: (1..=last).filter(|place| self.misses(name, *place)).count() as u64,
                unlooked: (1..=last)
                    .filter(|place| self.ignores(name, *place))
                    .count() as u64,
            });
        }
        let lags: Vec<_> = (0..=last).map(|place| self.lag(name, place)).collect();
        let worst = *lags.iter().max().unwrap();
        Counts::Broadcast(BroadcastCounts {
            received: self.count(name, None, "value"),
            told: self.count(name, None, "lagged"),
            lost: lags
                .windows(2)
                .map(|two| two[1].saturating_sub(two[0]))
                .sum(),
            worst,
            worst_place: lags.iter().position(|lag| *lag == worst).unwrap() as u64,
            unread: match self.seen(name, last) {
                Some(Seen::Broadcast { unread, .. }) => Some(unread),
                _ => None,
            },
        })
    }

    fn version(&self, (channel, _): Name, place: usize) -> u64 {
        self.states[place].counts[channel as usize]
    }

    /// Whether the call that led to this place made a version current while the receiver was there.
    fn came(&self, name: Name, place: usize) -> bool {
        let is_there = self.seen(name, place - 1).is_some();
        is_there && self.version(name, place - 1) < self.version(name, place)
    }

    /// Whether that version never was the receiver's mark.
    fn misses(&self, name: Name, place: usize) -> bool {
        let mark = Some(self.version(name, place));
        let is_seen = |at: usize| self.seen(name, at) == Some(Seen::Watch { mark });
        self.came(name, place) && !(0..=self.entries.len()).any(is_seen)
    }

    /// Whether the receiver made no look while that version was current.
    fn ignores(&self, name: Name, place: usize) -> bool {
        let is_look = |(at, entry): (usize, &ModelEntry<'_>)| {
            (entry.channel, entry.handle, entry.reply) == (name.0, name.1, "value")
                && matches!(entry.word, "borrow" | "update")
                && self.version(name, at) == self.version(name, place)
        };
        self.came(name, place) && !self.entries.iter().enumerate().any(is_look)
    }

    fn closing(&self, channel: u32) -> Option<Closing> {
        let senders = |place: usize| self.states[place].senders[channel as usize].len();
        let place = (1..=self.entries.len()).find(|it| senders(*it) == 0 && senders(it - 1) > 0)?;
        Some(Closing {
            channel,
            place: place as u64,
        })
    }

    /// What the receivers did that were there where their channel was closed.
    fn late(&self, closing: &Closing) -> Vec<LateReader> {
        let place = closing.place as usize;
        let receivers = self.receivers().into_iter();
        let alive =
            receivers.filter(|it| it.0 == closing.channel && self.seen(*it, place).is_some());
        alive.map(|name| self.after(name, place)).collect()
    }

    fn after(&self, (channel, receiver): Name, place: usize) -> LateReader {
        let entries = (place + 1..).zip(&self.entries[place..]);
        let own: Vec<_> = entries
            .filter(|(_, entry)| (entry.channel, entry.handle) == (channel, receiver))
            .collect();
        let told_at = own.iter().find(|(_, entry)| entry.reply == "closed");
        let reads = own.iter().filter(|(_, entry)| {
            matches!(
                (entry.word, entry.reply),
                ("recv" | "try-recv", "value") | ("changed", "done")
            )
        });
        LateReader {
            channel,
            receiver,
            told: told_at.map(|(place, _)| *place as u64),
            read_on: reads.count() as u64,
        }
    }

    pub(super) fn findings(&self) -> Findings {
        let readers = self.receivers().into_iter();
        let channels = 0..self.retained.len() as u32;
        let closings: Vec<_> = channels.filter_map(|it| self.closing(it)).collect();
        let losses = self.losses();
        let last = self.entries.len();
        let receipts = self.receivers().into_iter();
        Findings {
            starts: losses.iter().map(|loss| self.start(loss)).collect(),
            receipts: receipts.map(|name| self.last_given(name, last)).collect(),
            losses,
            totals: readers
                .map(|name| Totals {
                    channel: name.0,
                    receiver: name.1,
                    counts: self.counts(name),
                })
                .collect(),
            late: closings.iter().flat_map(|it| self.late(it)).collect(),
            closings,
        }
    }
}

impl ModelState {
    fn make_receiver(&mut self, name: Name, is_watch: bool) {
        let count = self.counts[name.0 as usize];
        if is_watch {
            self.marks.insert(name, Some(count));
        } else {
            self.positions.insert(name, count);
        }
    }

    /// Reads an entry of a channel that retains these many values.
    fn read(&mut self, entry: &ModelEntry<'_>, retained: u64) {
        let (channel, name) = (entry.channel as usize, (entry.channel, entry.handle));
        match (entry.word, entry.reply, entry.value) {
            (_, "sent" | "stored" | "old", _) | (_, "told", "yes") => self.counts[channel] += 1,
            ("subscribe" | "resubscribe", "new", _) => {
                self.make_receiver((name.0, entry.number as u32), retained == 0);
            }
            ("clone-receiver", "new", _) => {
                let mark = self.marks[&name];
                self.marks.insert((name.0, entry.number as u32), mark);
            }
            ("clone-sender" | "upgrade", "new", _) => {
                self.senders[channel].push(entry.number as u32);
            }
            ("recv" | "try-recv", "value", _) => *self.positions.get_mut(&name).unwrap() += 1,
            (_, "lagged", _) => {
                self.positions.insert(name, self.counts[channel] - retained);
            }
            ("update", "value", _) | ("changed" | "mark-unchanged", "done", _) => {
                self.marks.insert(name, Some(self.counts[channel]));
            }
            ("mark-changed", "done", _) => {
                self.marks.insert(name, None);
            }
            (_, "dropped", _) => {
                self.positions.remove(&name);
                self.marks.remove(&name);
                self.senders[channel].retain(|sender| *sender != entry.handle);
            }
            _ => {}
        }
    }
}
