//! What the definitions of docs/use/ACCOUNT.md say of a run: its channels as tokio documents them,
//! and of each receiver what it lost, learned of and was told.

use std::collections::{BTreeMap, BTreeSet};

/// A loss: its channel and receiver, where it began, where it ended, how many values, and how.
pub type Loss = (u64, u32, u32, Option<u64>, u64, &'static str);

/// What is compared of a fact: its kind, channel, receiver and numbers.
pub type Said = (&'static str, u32, Option<u32>, Vec<u64>);

/// A receiver of a broadcast.
pub struct Reader {
    /// How many values were sent where it received last, was told, or was created.
    position: u64,
    born: u64,
    died: Option<u64>,
    lag_since: Option<u64>,
    losses: Vec<(u64, Option<u64>, u64, &'static str)>,
}

/// What was there where a channel closed, and which of that was told so.
#[derive(Default)]
struct Close {
    receivers: BTreeSet<u32>,
    told: BTreeSet<u32>,
}

impl Close {
    /// How many receivers count, and how many were told. One that was dropped without being told
    /// had no more use for it.
    fn fact(&self, alive: &BTreeSet<u32>, channel: u32) -> Option<Said> {
        let told = self.receivers.intersection(&self.told).count() as u64;
        let left = self.receivers.difference(&self.told);
        let left = left.filter(|it| alive.contains(it)).count() as u64;
        (told + left > 0).then(|| ("closing", channel, None, vec![told + left, told]))
    }
}

/// A broadcast.
pub struct Broadcast {
    pub number: u32,
    pub retained: u64,
    pub sent: u64,
    pub readers: BTreeMap<u32, Reader>,
    unreached: u64,
    close: Option<Close>,
}

impl Broadcast {
    pub fn new(number: u32, capacity: usize) -> Broadcast {
        let mut made = Broadcast {
            number,
            // tokio rounds it up.
            retained: capacity.next_power_of_two() as u64,
            sent: 0,
            readers: BTreeMap::new(),
            unreached: 0,
            close: None,
        };
        made.subscribed(1);
        made
    }

    fn alive(&self) -> BTreeSet<u32> {
        let alive = self.readers.iter().filter(|(_, it)| it.died.is_none());
        alive.map(|(number, _)| *number).collect()
    }

    /// How many receivers a send reaches.
    pub fn sent(&mut self, place: u64) -> Option<u64> {
        let alive = self.alive();
        if alive.is_empty() {
            self.unreached += 1;
            return None;
        }
        self.sent += 1;
        for reader in self.readers.values_mut().filter(|it| it.died.is_none()) {
            let lags = self.sent - reader.position > self.retained;
            reader.lag_since = reader.lag_since.or(lags.then_some(place));
        }
        Some(alive.len() as u64)
    }

    pub fn subscribed(&mut self, receiver: u32) {
        let reader = Reader {
            position: self.sent,
            born: self.sent,
            died: None,
            lag_since: None,
            losses: vec![],
        };
        self.readers.insert(receiver, reader);
    }

    /// What a receive answers: the number of a value, or how many were lost, or nothing.
    pub fn received(&mut self, receiver: u32, place: u64) -> Result<u64, Option<u64>> {
        let (sent, retained) = (self.sent, self.retained);
        let reader = self.readers.get_mut(&receiver).unwrap();
        if let Some(from) = reader.lag_since.take() {
            let lost = sent - reader.position - retained;
            reader.position = sent - retained;
            reader.losses.push((from, Some(place), lost, "told"));
            return Err(Some(lost));
        }
        if reader.position < sent {
            reader.position += 1;
            return Ok(reader.position);
        }
        if let Some(close) = &mut self.close {
            close.told.insert(receiver);
        }
        Err(None)
    }

    pub fn dropped(&mut self, receiver: u32, place: u64) {
        let (sent, retained) = (self.sent, self.retained);
        let reader = self.readers.get_mut(&receiver).unwrap();
        reader.died = Some(sent);
        if let Some(from) = reader.lag_since.take() {
            let lost = sent - reader.position - retained;
            reader.losses.push((from, Some(place), lost, "dropped"));
        }
    }

    pub fn closed(&mut self) {
        self.close = Some(Close {
            receivers: self.alive(),
            told: BTreeSet::new(),
        });
    }

    pub fn is_closed(&self) -> bool {
        self.close.is_some()
    }

    /// All losses, with those that are open at the end.
    pub fn losses(&self) -> Vec<Loss> {
        let of = |(number, reader): (&u32, &Reader)| {
            let open = reader.lag_since.map(|from| {
                let lost = self.sent - reader.position - self.retained;
                (from, None, lost, "open")
            });
            let all = reader.losses.iter().copied().chain(open);
            let all = all.map(|(from, to, lost, end)| (from, self.number, *number, to, lost, end));
            all.collect::<Vec<_>>()
        };
        self.readers.iter().flat_map(of).collect()
    }

    pub fn facts(&self) -> Vec<Said> {
        let losses = self.losses();
        let mut facts: Vec<Said> = vec![];
        for (number, reader) in &self.readers {
            let own = losses.iter().filter(|(_, _, it, ..)| it == number);
            let own: Vec<u64> = own.map(|(.., lost, _)| *lost).collect();
            let came = reader.died.unwrap_or(self.sent) - reader.born;
            if !own.is_empty() {
                let numbers = vec![own.iter().sum(), came, own.len() as u64];
                facts.push(("loss", self.number, Some(*number), numbers));
            }
        }
        if self.unreached > 0 {
            facts.push(("unreached", self.number, None, vec![self.unreached]));
        }
        let close = self.close.as_ref();
        facts.extend(close.and_then(|it| it.fact(&self.alive(), self.number)));
        facts
    }
}

/// A receiver of a watch: which changes came to it, and what it did with them.
#[derive(Clone, Default)]
pub struct Looker {
    born: u64,
    died: Option<u64>,
    mark: u64,
    /// Whether it was marked as changed since.
    pub is_unmarked: bool,
    learned: BTreeSet<u64>,
    /// What it marked by `mark_unchanged`, and what it learned of in another way.
    dismissed: BTreeSet<u64>,
    known: BTreeSet<u64>,
    looked: BTreeSet<u64>,
    marked: BTreeSet<u64>,
    asks: bool,
}

impl Looker {
    /// Whether a change came that it hasn't marked, where `changes` came in all.
    pub fn has_new(&self, changes: u64) -> bool {
        self.is_unmarked || self.mark < changes
    }
}

/// A watch, whose value is the number of its last change.
pub struct Watch {
    pub number: u32,
    pub changes: u64,
    pub lookers: BTreeMap<u32, Looker>,
    unreached: u64,
    close: Option<Close>,
}

impl Watch {
    pub fn new(number: u32) -> Watch {
        Watch {
            number,
            changes: 0,
            lookers: [(1, Looker::default())].into(),
            unreached: 0,
            close: None,
        }
    }

    pub fn alive(&self) -> BTreeSet<u32> {
        let alive = self.lookers.iter().filter(|(_, it)| it.died.is_none());
        alive.map(|(number, _)| *number).collect()
    }

    /// Whether a send is a change: `send` is none where no receiver is there.
    pub fn sent(&mut self, always: bool) -> bool {
        let is_change = always || !self.alive().is_empty();
        self.changes += u64::from(is_change);
        self.unreached += u64::from(!is_change);
        is_change
    }

    pub fn subscribed(&mut self, receiver: u32) {
        let looker = Looker {
            born: self.changes,
            mark: self.changes,
            ..Looker::default()
        };
        self.lookers.insert(receiver, looker);
    }

    pub fn cloned(&mut self, original: u32, receiver: u32) {
        let looker = Looker {
            born: self.changes,
            mark: self.lookers[&original].mark,
            is_unmarked: self.lookers[&original].is_unmarked,
            ..Looker::default()
        };
        self.lookers.insert(receiver, looker);
    }

    /// Takes that a receiver looked, marked or was told of the last change.
    pub fn learned(&mut self, receiver: u32, has_looked: bool, has_marked: bool) {
        let changes = self.changes;
        let looker = self.lookers.get_mut(&receiver).unwrap();
        if has_marked {
            looker.mark = changes;
            looker.is_unmarked = false;
        }
        if changes > looker.born {
            looker.learned.insert(changes);
            looker.known.insert(changes);
            looker.looked.extend(has_looked.then_some(changes));
            looker.marked.extend(has_marked.then_some(changes));
        }
    }

    /// Takes that a receiver marked the last change as seen, by which it isn't told of it.
    pub fn dismissed(&mut self, receiver: u32) {
        let looker = self.lookers.get_mut(&receiver).unwrap();
        (looker.mark, looker.is_unmarked) = (self.changes, false);
        if self.changes > looker.born {
            looker.learned.insert(self.changes);
            looker.marked.insert(self.changes);
            looker.dismissed.insert(self.changes);
        }
    }

    /// Takes that a receiver asks for a new version. Returns whether there is one.
    pub fn asked(&mut self, receiver: u32) -> bool {
        let looker = self.lookers.get_mut(&receiver).unwrap();
        looker.asks = true;
        looker.has_new(self.changes)
    }

    pub fn told_closed(&mut self, receiver: u32) {
        self.close.as_mut().unwrap().told.insert(receiver);
    }

    pub fn dropped(&mut self, receiver: u32) {
        let changes = self.changes;
        self.lookers.get_mut(&receiver).unwrap().died = Some(changes);
    }

    pub fn closed(&mut self) {
        self.close = Some(Close {
            receivers: self.alive(),
            told: BTreeSet::new(),
        });
    }

    pub fn is_closed(&self) -> bool {
        self.close.is_some()
    }

    pub fn facts(&self) -> Vec<Said> {
        let mut facts: Vec<Said> = vec![];
        for (number, looker) in &self.lookers {
            let came = looker.died.unwrap_or(self.changes) - looker.born;
            let all_but = |those: &BTreeSet<u64>| came - those.len() as u64;
            let unlearned = all_but(&looker.learned);
            if unlearned > 0 {
                let numbers = vec![unlearned, came];
                facts.push(("unlearned", self.number, Some(*number), numbers));
            }
            let unlooked = looker.dismissed.difference(&looker.known).count() as u64;
            if unlooked > 0 {
                let numbers = vec![unlooked, came];
                facts.push(("unlooked", self.number, Some(*number), numbers));
            }
            let unmarked = all_but(&looker.marked);
            if looker.asks && unmarked > all_but(&looker.looked) {
                let numbers = vec![unmarked, came];
                facts.push(("unmarked", self.number, Some(*number), numbers));
            }
        }
        if self.unreached > 0 {
            facts.push(("unreached", self.number, None, vec![self.unreached]));
        }
        let close = self.close.as_ref();
        facts.extend(close.and_then(|it| it.fact(&self.alive(), self.number)));
        facts
    }
}
