//! The calls of a journal in their order, and which of them a call that comes can be.
//!
//! A call is known by its channel, its handle and its caller. A handle may be in the hands of
//! several callers, as a sender in an `Arc`. So the calls of one handle by one caller make a
//! *lane*, and a call that comes can only be the next of its lane. The callers that nobody named
//! share the lanes of a handle, and so do all callers for its drop: who drops the last `Arc` isn't
//! in the journal.

use super::ArrivingCall;
use crate::channels::actors::{MOST_TASKS, SPAWNED_TASK, UNNAMED_TASK, UNNAMED_THREAD};
use crate::channels::backend::Actor;
use std::collections::HashMap;
use yovanelum_record::by_text::TextMap;
use yovanelum_record::journal::{Run, RunEntry};
use yovanelum_record::numbered::{NumberMap, NumberSet};
use yovanelum_record::operation::Operation;
use yovanelum_record::sidecar::{Maker, Sidecar};

/// No step.
pub(super) const NONE: u32 = u32::MAX;

/// Whose calls a lane has.
#[derive(Clone, Copy, PartialEq, Eq, Hash, Debug)]
enum Class {
    /// The actor with this number.
    Named(u32),
    /// All actors that nobody named.
    Unnamed,
    /// All actors: a handle is dropped once.
    Any,
}

/// A call of the journal.
pub(super) struct PlannedCall {
    pub(super) call: RunEntry,
    pub(super) lane: u32,
    /// The next step of its lane.
    pub(super) next_in_lane: u32,
    /// The next step of its actor.
    pub(super) next_of_actor: u32,
    /// How many steps of its channel are before it.
    pub(super) index: u32,
    /// Whether it is a drop by that of a named future, which makes no further call.
    pub(super) is_cancelled: bool,
}

/// The calls of a journal, as a replay follows them.
pub(super) struct Plan {
    pub(super) steps: Vec<PlannedCall>,
    pub(super) names: Sidecar,
    lanes: HashMap<(u32, u32, Class), u32>,
    /// The first step of each lane.
    pub(super) first_of_lane: Vec<u32>,
    /// Whether several actors that nobody named have calls in the lane.
    pub(super) is_shared: Vec<bool>,
    /// The first step of each actor.
    pub(super) first_of_actor: [u32; Actor::MOST],
    /// Whether an actor has used a handle that isn't dropped in the journal. Then it may have made
    /// further calls after the journal's end.
    pub(super) outlives: [bool; Actor::MOST],
    classes: [Class; Actor::MOST],
    numbers: TextMap<u32>,
}

impl Plan {
    /// Returns the plan of a run with these names.
    pub(super) fn new(run: &Run, names: Sidecar) -> Plan {
        let mut classes = [Class::Unnamed; Actor::MOST];
        let mut numbers = TextMap::new();
        for (actor, class) in (0..).zip(&mut classes) {
            *class = class_of(actor as usize, &names);
            let name = names.actors.get(&u64::from(actor));
            if let Some(name) = name.filter(|_| *class != Class::Unnamed) {
                numbers.insert(name, actor);
            }
        }
        let mut plan = Plan {
            steps: Vec::new(),
            names,
            lanes: HashMap::new(),
            first_of_lane: Vec::new(),
            is_shared: Vec::new(),
            first_of_actor: [NONE; Actor::MOST],
            outlives: [false; Actor::MOST],
            classes,
            numbers,
        };
        plan.add_steps(run);
        plan.find_outliving();
        plan
    }

    fn add_steps(&mut self, run: &Run) {
        let mut last_of_lane: Vec<u32> = Vec::new();
        let mut last_of_actor = [NONE; Actor::MOST];
        let mut count_of_channel: NumberMap<u32, u32> = NumberMap::new();
        self.steps.reserve_exact(run.len() as usize);
        for (step, (_, call)) in (0..).zip(run.entries()) {
            let actor = call.actor;
            let count = count_of_channel.get_or_default(call.channel);
            let index = *count;
            *count += 1;
            let is_cancelled = has(&self.names.matching.cancelled, &call, index);
            let call = self.marked(call, index);
            let lane = self.lane_for(&call);
            last_of_lane.resize(self.first_of_lane.len(), NONE);
            let before = std::mem::replace(&mut last_of_lane[lane as usize], step);
            match self.steps.get_mut(before as usize) {
                Some(before) => {
                    before.next_in_lane = step;
                    self.is_shared[lane as usize] |=
                        before.call.actor != actor && call.word != Operation::Drop;
                }
                None => self.first_of_lane[lane as usize] = step,
            }
            let before = std::mem::replace(&mut last_of_actor[actor as usize], step);
            match self.steps.get_mut(before as usize) {
                Some(before) => before.next_of_actor = step,
                None => self.first_of_actor[actor as usize] = step,
            }
            self.steps.push(PlannedCall {
                call,
                lane,
                next_in_lane: NONE,
                next_of_actor: NONE,
                index,
                is_cancelled,
            });
        }
    }

    /// Returns the call, as one that waits if the names mark it so. It is the one with this index
    /// on its channel.
    fn marked(&self, call: RunEntry, index: u32) -> RunEntry {
        let is_marked = has(&self.names.matching.waited, &call, index);
        RunEntry {
            word: if is_marked {
                call.word.marked()
            } else {
                call.word
            },
            ..call
        }
    }

    /// Returns the lane of a call, a new one if it is the first.
    fn lane_for(&mut self, call: &RunEntry) -> u32 {
        let key = (
            call.channel,
            call.handle,
            self.class_for(call.word, call.actor as usize),
        );
        let next = self.first_of_lane.len() as u32;
        let lane = *self.lanes.entry(key).or_insert(next);
        if lane == next {
            self.first_of_lane.push(NONE);
            self.is_shared.push(false);
        }
        lane
    }

    fn find_outliving(&mut self) {
        let dropped: NumberSet<_> = self
            .steps
            .iter()
            .filter(|step| step.call.word == Operation::Drop)
            .map(|step| (step.call.channel, step.call.handle))
            .collect();
        for step in &self.steps {
            let handle = (step.call.channel, step.call.handle);
            self.outlives[step.call.actor as usize] |= !dropped.contains(&handle);
        }
    }

    fn class_for(&self, word: Operation, actor: usize) -> Class {
        match word {
            Operation::Drop => Class::Any,
            _ => self.classes[actor],
        }
    }

    /// Returns the lane of a call that comes, if the journal has one.
    pub(super) fn lane_of(&self, coming: &ArrivingCall) -> Option<u32> {
        let class = self.class_for(coming.word, coming.actor.number() as usize);
        let key = (coming.channel, coming.handle, class);
        self.lanes.get(&key).copied()
    }

    /// Whether somebody named this actor.
    pub(super) fn is_named(&self, actor: Actor) -> bool {
        self.classes[actor.number() as usize] != Class::Unnamed
    }

    /// Whether the journal has this actor. The last number that there is may be that of several.
    pub(super) fn has_actor(&self, actor: Actor) -> bool {
        let number = actor.number();
        let is_last = number as usize + 1 == Actor::MOST;
        let has_calls = self.first_of_actor[number as usize] != NONE;
        is_last || has_calls || self.names.actors.contains_key(&number.into())
    }

    /// Whether the journal has calls of tasks without a name, or may have, since others have as
    /// many numbers as such tasks get.
    pub(super) fn has_unnamed_tasks(&self) -> bool {
        let mut unnamed = self.names.matching.unnamed.iter();
        let is_any = unnamed.any(|actor| {
            let name = self.names.actors.get(actor);
            name.is_some_and(|name| name.starts_with(UNNAMED_TASK))
        });
        is_any || self.spawned_tasks() >= MOST_TASKS
    }

    /// Returns how many tasks the journal has that are known by where they come from.
    pub(super) fn spawned_tasks(&self) -> usize {
        let names = self.numbers.keys();
        names.filter(|name| name.starts_with(SPAWNED_TASK)).count()
    }

    /// Returns the number of the actor with this name, unless the journal has none or nobody gave
    /// it that name.
    pub(super) fn actor_named(&self, name: &str) -> Option<u32> {
        self.numbers.get(name).copied()
    }

    /// Returns the names of the actors by number, `None` for those that nobody named.
    pub(super) fn actors(&self) -> Vec<Option<String>> {
        let count = self.names.actors.iter().next_back();
        let count = count.map_or(0, |(last, _)| *last as usize + 1);
        let mut names = vec![None; count.min(Actor::MOST)];
        for (name, actor) in self.numbers.iter() {
            names[*actor as usize] = Some(name.to_string());
        }
        names
    }

    /// Returns the channel of the journal that this caller has made after as many others.
    pub(super) fn channel_by(&self, maker: &Maker) -> Option<u32> {
        let made_by = &self.names.matching.made_by;
        let made = made_by.iter().find(|(_, made)| *made == maker);
        made.and_then(|(channel, _)| u32::try_from(*channel).ok())
    }
}

/// Whether a call, the one with this index on its channel, is among some entries of the channels.
fn has(entries: &NumberMap<u64, Vec<u64>>, call: &RunEntry, index: u32) -> bool {
    let of_channel = entries.get(&u64::from(call.channel));
    of_channel.is_some_and(|entries| entries.binary_search(&u64::from(index)).is_ok())
}

/// Returns the class of an actor. The last number that there is may be that of several actors.
fn class_of(actor: usize, names: &Sidecar) -> Class {
    let number = actor as u64;
    let is_last = actor + 1 == Actor::MOST;
    match names.actors.get(&number) {
        Some(name) if !names.matching.unnamed.contains(&number) && !is_last => {
            if name.starts_with(UNNAMED_THREAD) {
                Class::Unnamed
            } else {
                Class::Named(actor as u32)
            }
        }
        _ => Class::Unnamed,
    }
}
