//! A journal that was opened, with indexes over its calls: by actor, and by line of a source.

use crate::journal::Journal;
use crate::sources::Sources;
use crate::tasks::SeenTasks;
use crate::{Answer, Refusal};
use serde_json::Value;
use std::collections::{BTreeMap, BTreeSet};
use yovanelum::debugger::recorded::{Entities, Opened, Recorded};
use yovanelum::debugger::{Entry, Walk};

/// A sorted list of places.
pub(crate) type Places = Vec<u32>;

/// Where a call has no known location.
const UNKNOWN: u32 = u32::MAX;

/// A call that still waits at the end.
pub(crate) struct WaitAtEnd {
    pub(crate) actor: u32,
    pub(crate) channel: u32,
    pub(crate) text: String,
    /// File, line and column.
    pub(crate) location: Option<(String, u64, u64)>,
}

/// A loss that was found.
pub(crate) struct Loss {
    pub(crate) channel: u32,
    pub(crate) receiver: u32,
    pub(crate) from: u32,
    /// Where it ended: the call that was told, or the drop of the receiver.
    pub(crate) to: Option<u32>,
    pub(crate) lost: u64,
    pub(crate) is_told: bool,
}

/// A fact of the report.
pub(crate) struct Fact {
    pub(crate) places: Places,
    pub(crate) lines: Vec<String>,
}

/// A run with what is known of it.
pub(crate) struct Recording {
    walk: Walk,
    pub(crate) names: Recorded,
    pub(crate) sources: Sources,
    pub(crate) facts: Vec<Fact>,
    pub(crate) losses: Vec<Loss>,
    pub(crate) waits: Vec<WaitAtEnd>,
    pub(crate) tasks: SeenTasks,
    /// Each receiver that was created, as channel and handle.
    pub(crate) receivers: BTreeSet<(u32, u32)>,
    /// What the names of receivers, channels and actors stand for.
    pub(crate) things: Entities,
    of_actor: BTreeMap<u32, Places>,
    // By index into the locations.
    of_location: Vec<Places>,
    // The location of each place, from 1 on.
    locations: Vec<u32>,
}

impl Recording {
    /// Opens a journal. Returns also what the user should know of it.
    pub(crate) fn open(journal: &Journal, sources: Sources) -> Answer<(Recording, Vec<String>)> {
        let path = journal.path.display();
        let opened = Opened::read(&journal.text, journal.names.clone()).map_err(|fault| {
            let line = fault
                .line()
                .map_or(String::new(), |line| format!(", line {line}"));
            Refusal(format!(
                "{path}{line}: {fault}: it isn't the journal of a run"
            ))
        })?;
        let mut warnings = journal.warnings.clone();
        warnings.extend(opened.cut_off.map(|_| {
            let calls = opened.walk.len();
            format!("{path} is truncated; the {calls} calls of its whole lines are here")
        }));
        let fault = opened.names_fault.as_ref();
        let names = journal.names_path.display();
        warnings.extend(fault.map(|fault| format!("{names} is left out: {fault}")));
        let tasks = SeenTasks::read(journal.names.as_deref().filter(|_| fault.is_none()));
        let mut recording = Recording::of(opened.walk, opened.recorded, tasks, sources);
        warnings.extend(recording.sources.faults(&recording.names));
        Ok((recording, warnings))
    }

    fn of(walk: Walk, names: Recorded, tasks: SeenTasks, sources: Sources) -> Recording {
        let account: Value = serde_json::from_str(names.account()).unwrap_or(Value::Null);
        let mut recording = Recording {
            facts: facts_in(&account),
            losses: losses_in(&account),
            waits: waits_in(&account),
            tasks,
            receivers: (0..walk.channels()).map(|channel| (channel, 1)).collect(),
            things: Entities::default(),
            of_actor: BTreeMap::new(),
            of_location: vec![vec![]; names.locations().len()],
            locations: Vec::with_capacity(walk.len() as usize),
            walk,
            names,
            sources,
        };
        recording.index();
        let (receivers, actors) = (&recording.receivers, recording.of_actor.keys());
        let (receivers, actors) = (receivers.iter().copied(), actors.copied());
        recording.things = Entities::of(&recording.walk, &recording.names, receivers, actors);
        recording
    }

    fn index(&mut self) {
        for place in 1..=self.len() {
            let Some(entry) = self.walk.entry(place.into()) else {
                return;
            };
            if let ("subscribe" | "resubscribe" | "clone-receiver", Some(made)) =
                (entry.call(), new_handle(&entry))
            {
                self.receivers.insert((entry.channel(), made));
            }
            if place <= self.first() {
                if entry.reply() == "dropped" {
                    self.receivers.remove(&(entry.channel(), entry.handle()));
                }
                self.locations.push(UNKNOWN);
                continue;
            }
            self.of_actor.entry(entry.actor()).or_default().push(place);
            let location = self.names.location(place.into(), &entry);
            let known = location.and_then(|index| self.of_location.get_mut(index));
            self.locations.push(match (known, location) {
                (Some(places), Some(index)) => {
                    places.push(place);
                    index as u32
                }
                _ => UNKNOWN,
            });
        }
    }

    /// The last place. A run has 67 million calls at most.
    pub(crate) fn len(&self) -> u32 {
        self.walk.len() as u32
    }

    /// The first place: that at which a window begins, behind its lead, or 0.
    pub(crate) fn first(&self) -> u32 {
        self.names.lead().min(self.walk.len()) as u32
    }

    /// Returns the walk at a place of the run.
    pub(crate) fn at(&mut self, place: u32) -> &mut Walk {
        self.walk.go_to(place.into());
        &mut self.walk
    }

    /// Returns the walk where it is, for questions that any place answers.
    pub(crate) fn walk(&self) -> &Walk {
        &self.walk
    }

    /// Returns the call that led to a place. Nobody made those that lead to a window.
    pub(crate) fn entry(&self, place: u32) -> Option<Entry> {
        self.walk
            .entry(place.into())
            .filter(|_| place > self.first())
    }

    /// The actors that made a call, or wait in one.
    pub(crate) fn actors(&self) -> Vec<u32> {
        let waiting = self.waits.iter().map(|wait| wait.actor);
        let mut actors: Vec<_> = self.of_actor.keys().copied().chain(waiting).collect();
        actors.sort_unstable();
        actors.dedup();
        actors
    }

    /// The places that the calls of an actor lead to.
    pub(crate) fn places_of_actor(&self, actor: u32) -> &[u32] {
        self.of_actor.get(&actor).map_or(&[], Vec::as_slice)
    }

    /// Where the call was made that led to a place, as an index into the locations.
    pub(crate) fn location(&self, place: u32) -> Option<usize> {
        let index = self.locations.get((place as usize).checked_sub(1)?)?;
        (*index != UNKNOWN).then_some(*index as usize)
    }

    /// The locations in a file that have calls: line, column, and index.
    pub(crate) fn locations_in(&self, file: &str) -> Vec<(u32, u32, usize)> {
        let all = self.names.locations().iter().zip(&self.of_location);
        let here = all
            .enumerate()
            .filter(|(_, (at, places))| at.file == file && !places.is_empty());
        let mut here: Vec<_> = here
            .map(|(index, (at, _))| (at.line, at.column, index))
            .collect();
        here.sort_unstable();
        here
    }

    /// The places whose calls were made at a line of a file, and at this column if one is given.
    pub(crate) fn places_of_line(&self, file: &str, line: u32, column: Option<u32>) -> Places {
        let here = self.locations_in(file).into_iter();
        let here = here.filter(|(at, col, _)| *at == line && column.is_none_or(|it| it == *col));
        let mut places: Places = here
            .flat_map(|(_, _, index)| self.of_location[index].iter().copied())
            .collect();
        places.sort_unstable();
        places
    }

    /// The places whose entries meet a condition.
    pub(crate) fn places_where(&self, is_met: impl Fn(u32, &Entry) -> bool) -> Places {
        let entries = (1..=self.len()).filter_map(|place| Some((place, self.entry(place)?)));
        let met = entries.filter(|(place, entry)| is_met(*place, entry));
        met.map(|(place, _)| place).collect()
    }

    /// Returns the loss that begins at a place, or that the call of a place returned.
    pub(crate) fn loss_at(&self, place: u32) -> Option<&Loss> {
        let told = |loss: &&Loss| loss.is_told && loss.to == Some(place);
        let begins = |loss: &&Loss| loss.from == place;
        let losses = || self.losses.iter();
        losses().find(told).or_else(|| losses().find(begins))
    }
}

/// Returns the handle that a call created, if it created one.
fn new_handle(entry: &Entry) -> Option<u32> {
    let made = entry.returned().filter(|_| entry.reply() == "new")?;
    u32::try_from(made).ok()
}

fn number(value: &Value, key: &str) -> Option<u64> {
    value.get(key)?.as_u64()
}

fn list<'a>(value: &'a Value, key: &str) -> &'a [Value] {
    let items = value.get(key).and_then(Value::as_array);
    items.map_or(&[], Vec::as_slice)
}

fn facts_in(account: &Value) -> Vec<Fact> {
    let fact = |fact: &Value| Fact {
        places: list(fact, "places")
            .iter()
            .filter_map(|step| Some(number(step, "place")? as u32))
            .collect(),
        lines: list(fact, "text")
            .iter()
            .filter_map(|line| Some(line.as_str()?.to_string()))
            .collect(),
    };
    list(account, "facts").iter().map(fact).collect()
}

fn losses_in(account: &Value) -> Vec<Loss> {
    let loss = |loss: &Value| {
        Some(Loss {
            channel: number(loss, "channel")? as u32,
            receiver: number(loss, "receiver")? as u32,
            from: number(loss, "from")? as u32,
            to: number(loss, "to").map(|place| place as u32),
            lost: number(loss, "lost")?,
            is_told: loss.get("end")?.as_str()? == "told",
        })
    };
    list(account, "losses").iter().filter_map(loss).collect()
}

fn waits_in(account: &Value) -> Vec<WaitAtEnd> {
    let location = |wait: &Value| {
        let [file, line, column] = list(wait, "location") else {
            return None;
        };
        Some((file.as_str()?.to_string(), line.as_u64()?, column.as_u64()?))
    };
    let wait = |wait: &Value| {
        Some(WaitAtEnd {
            actor: number(wait, "actor")? as u32,
            channel: number(wait, "channel")? as u32,
            text: wait.get("text")?.as_str()?.to_string(),
            location: location(wait),
        })
    };
    list(account, "waiting").iter().filter_map(wait).collect()
}
