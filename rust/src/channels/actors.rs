//! Who makes a call: the innermost named future, or else the task of a runtime that tells its tasks
//! apart, or else the thread. A task that nobody named is known by where it comes from, if that is
//! told. A recorder gives each of them a number. Channels, recorders, events, replays and explored
//! runs ask who it is.

mod caller;
mod explored;
mod holders;
mod identity;
mod last_caller;
mod named;
mod origin;
mod own;
mod spawned;
#[cfg(test)]
mod tests;

pub use caller::set_task_id;
pub(crate) use caller::{
    CallerNumber, current, current_task, forget_last_recorder, has_called, is_dropping_future,
    last_recorder, name_of_blocked, name_of_caller, name_of_future, name_of_sharing, name_of_task,
    name_of_thread_alone, number_of_caller, own_number, write_caller,
};
pub(crate) use explored::{
    BlockedPoll, is_in_blocked_poll, is_in_task, is_over_facade, last_task, note_facade,
    note_wait_of_thread, set_last_task,
};
pub(crate) use holders::Unused;
pub(crate) use identity::Identity;
pub(crate) use last_caller::{LastCaller, LastName};
pub use named::{Named, named};
pub(crate) use origin::SPAWNED_TASK;
pub use spawned::{SpawnedTask, blocking_task, spawned_task};
use yovanelum_record::listed::IntoList;

use crate::channels::backend::Actor;
use crate::channels::channel::CallSite;
use caller::{is_spawned_task, is_unnamed, name_of_thread};
use holders::{Holder, Holders};
use std::collections::VecDeque;
use std::panic::Location;
use yovanelum_record::by_text::{TextMap, TextSet};
use yovanelum_record::numbered::{NumberMap, NumberSet};

/// Where the name of a thread begins that has none.
pub(crate) const UNNAMED_THREAD: &str = "ThreadId(";

/// Where the name of a task begins that has none.
pub(crate) const UNNAMED_TASK: &str = "task ";

/// How many tasks that nobody named have a number of their own in a journal. Other numbers are left
/// for threads and named futures.
pub(crate) const MOST_TASKS: usize = 32;

/// How many names of those that share the last number are stored.
const MOST_SHARING: usize = 1024;

/// After how many that got no number it is looked for those that nobody needs, if no channel has
/// left the run.
const REFUSED_BETWEEN_LOOKS: usize = 64;

/// The actors of a recorder.
#[derive(Default)]
pub(crate) struct Actors {
    // By their numbers.
    names: Vec<String>,
    // Who has each number, in the same order.
    holders: Vec<Holders>,
    // Of threads and named futures that have a number of their own, by their names.
    numbers: TextMap<Actor>,
    // The names of those that share the last number with its owner. Of very many some are left out.
    sharing: TextSet,
    // How often somebody got no number, since numbers were last looked for that nobody needs.
    refused: usize,
    // How many channels had left the run then.
    left_before: usize,
    // Of tasks without a name, by the numbers that their runtime gives them.
    tasks: NumberMap<u64, Actor>,
    // Where each task without a name has made its first call.
    first_calls: NumberMap<u64, &'static Location<'static>>,
    // The numbers of threads and tasks without a name.
    unnamed: NumberSet<u64>,
    // Those of tasks that are known by where they come from.
    spawned: NumberSet<u64>,
    // Whether the names are those of a journal that is replayed.
    are_of_journal: bool,
    // In a replay, the numbers of such actors of the journal that nobody has yet.
    free: VecDeque<usize>,
    // The numbers that nobody has any more, and no stored call.
    given_away: VecDeque<usize>,
    // How many numbers are for others than those who call.
    reserved: usize,
}

impl Actors {
    /// Gives nobody the last number, since a flight recorder needs it.
    pub(crate) fn reserve_last(&mut self) {
        self.reserved = 1;
    }

    /// How many numbers there are for those who call.
    fn most(&self) -> usize {
        Actor::MOST - self.reserved
    }

    /// Returns the number of the current actor, whose call is made here in the source, if it has
    /// one or there is one for it.
    pub(crate) fn find(&mut self, task: Option<u64>, called_at: CallSite) -> Option<Actor> {
        if is_spawned_task() {
            return self.find_spawned();
        }
        if let Some(name) = name_of_future() {
            return self.find_named(name, Holder::current());
        }
        let of_task = task.and_then(|task| self.find_task(task, called_at));
        of_task.or_else(|| self.find_thread())
    }

    /// Returns the number of this thread, if it has one or there is one for it.
    fn find_thread(&mut self) -> Option<Actor> {
        self.find_named(name_of_thread(), Holder::thread())
    }

    /// Returns the number of this thread, if the current actor is a task on it that gets none.
    pub(crate) fn find_for_task(&mut self) -> Option<Actor> {
        is_spawned_task().then(|| self.find_thread()).flatten()
    }

    /// Returns the number of a task that is known by where it comes from, unless so many have one
    /// that this one gets none. Then it gets no name either, but in a replay: a task of the journal
    /// may come later than others.
    fn find_spawned(&mut self) -> Option<Actor> {
        let is_full = self.are_tasks_full();
        if is_full && !self.are_of_journal {
            return None;
        }
        let name = name_of_future()?;
        if is_full && !self.numbers.contains_key(&name) {
            return None;
        }
        let actor = self.find_named(name, Holder::current())?;
        self.spawned.insert(actor.number().into());
        Some(actor)
    }

    /// Whether as many tasks that nobody named have a number as can have one.
    fn are_tasks_full(&self) -> bool {
        self.tasks.len() + self.spawned.len() >= MOST_TASKS
    }

    /// Returns the last number, which the current actor shares. `true` marks the first one that
    /// does.
    pub(crate) fn share(&mut self) -> (Actor, bool) {
        let is_first = self.sharing.is_empty();
        if self.sharing.len() < MOST_SHARING {
            let name = name_of_future().unwrap_or_else(name_of_thread);
            self.sharing.insert(&name);
        }
        (Actor::of(self.most() - 1), is_first)
    }

    /// Whether it is time to look for numbers that nobody needs, since the current actor got none:
    /// where a channel has left the run since the last time, or many have got none.
    pub(crate) fn looks_for_unused(&mut self, left: usize) -> bool {
        self.refused += 1;
        let is_time = left != self.left_before || self.refused >= REFUSED_BETWEEN_LOOKS;
        if is_time {
            (self.refused, self.left_before) = (0, left);
        }
        is_time
    }

    /// Returns the numbers whose threads and named futures are all gone.
    pub(crate) fn unused(&mut self) -> Vec<Unused> {
        let numbers = self.holders.iter_mut().enumerate();
        let unused = numbers.filter_map(|(number, holders)| {
            let changes = holders.changes;
            holders.are_gone().then_some(Unused { number, changes })
        });
        unused.listed()
    }

    /// Gives those numbers away that nobody has got or given away since, and that aren't among
    /// these, the bits of which are the numbers that calls have.
    pub(crate) fn give_away(&mut self, unused: Vec<Unused>, stored: u64) {
        for Unused { number, changes } in unused {
            let is_stored = stored & (1 << number) != 0;
            if !is_stored && self.holders[number].changes == changes {
                self.numbers.remove(&self.names[number]);
                self.unnamed.remove(&(number as u64));
                self.spawned.remove(&(number as u64));
                self.given_away.push_back(number);
                self.holders[number].give_away();
            }
        }
    }

    /// Returns the number of the current actor, if it has one.
    pub(crate) fn known(&self) -> Option<Actor> {
        let name = name_of_future();
        let of_future = name.as_deref().and_then(|name| self.known_by(name));
        // A task that got no number has that of its thread.
        if of_future.is_some() || name.is_some() && !is_spawned_task() {
            return of_future;
        }
        let of_task = current_task().and_then(|task| self.tasks.get(&task).copied());
        of_task.or_else(|| self.known_by(&name_of_thread()))
    }

    fn known_by(&self, name: &str) -> Option<Actor> {
        let is_sharing = self.sharing.contains(name);
        let own = self.numbers.get(name).copied();
        own.or_else(|| is_sharing.then(|| Actor::of(self.most() - 1)))
    }

    /// Returns the number of a task without a name, unless so many others have one that this one
    /// gets none.
    fn find_task(&mut self, task: u64, called_at: CallSite) -> Option<Actor> {
        if let Some(actor) = self.tasks.get(&task) {
            return Some(*actor);
        }
        if self.are_tasks_full() {
            return None;
        }
        let number = self.number_for(&format!("{UNNAMED_TASK}{task}"), true)?;
        let actor = Actor::of(number);
        // Nobody says when a task ends.
        self.holders[number].never_end();
        self.tasks.insert(task, actor);
        if let Some(location) = called_at {
            self.first_calls.insert(number as u64, location);
        }
        Some(actor)
    }

    /// Returns a number for a new actor, unless all are given.
    fn number_for(&mut self, name: &str, is_unnamed: bool) -> Option<usize> {
        let free = self.free.front().filter(|_| is_unnamed).copied();
        let number = match free {
            Some(number) => {
                self.free.pop_front();
                self.names[number] = name.to_string();
                number
            }
            None => match self.given_away.pop_front() {
                Some(number) => {
                    self.names[number] = name.to_string();
                    self.holders[number].taken();
                    number
                }
                None if self.names.len() >= self.most() => return None,
                None => {
                    self.names.push(name.to_string());
                    self.holders.push(Holders::default());
                    self.names.len() - 1
                }
            },
        };
        if is_unnamed {
            self.unnamed.insert(number as u64);
        }
        Some(number)
    }

    fn find_named(&mut self, name: String, holder: Holder) -> Option<Actor> {
        let actor = match self.numbers.get(&name) {
            Some(actor) => *actor,
            None => {
                // Whoever shares a number does so as long as the run is known.
                if self.sharing.contains(&name) {
                    return None;
                }
                let actor = Actor::of(self.number_for(&name, is_unnamed(&name))?);
                self.numbers.insert(&name, actor);
                actor
            }
        };
        self.holders[actor.number() as usize].add(holder);
        Some(actor)
    }

    /// Numbers the actors as a journal does, which is replayed. `None` stands for one that nobody
    /// named; the first ones of this run get these numbers.
    pub(crate) fn preload(&mut self, names: Vec<Option<String>>) {
        self.are_of_journal = true;
        for (number, name) in names.into_iter().enumerate() {
            match &name {
                Some(name) => {
                    self.numbers.insert(name, Actor::of(number));
                    if name.starts_with(SPAWNED_TASK) {
                        self.spawned.insert(number as u64);
                    }
                }
                None => self.free.push_back(number),
            }
            self.names
                .push(name.unwrap_or_else(|| "nobody".to_string()));
            self.holders.push(Holders::default());
        }
    }

    /// Returns the name of the one who has this number, unless others share it.
    pub(crate) fn name(&self, actor: Actor) -> Option<&String> {
        let number = actor.number() as usize;
        let is_shared = number + 1 == self.most() && !self.sharing.is_empty();
        self.names.get(number).filter(|_| !is_shared)
    }

    /// Returns the names by number. If others share the last number, its name says how many.
    pub(crate) fn names(&self) -> Vec<String> {
        let mut names = self.names.clone();
        if let Some(last) = names.last_mut() {
            match self.sharing.len() {
                0 => (),
                MOST_SHARING => *last = format!("{last} and {MOST_SHARING} others or more"),
                others => *last = format!("{last} and {others} others"),
            }
        }
        names
    }

    /// Returns where each task without a name has made its first call, by the task's number as an
    /// actor.
    pub(crate) fn first_calls(&self) -> &NumberMap<u64, &'static Location<'static>> {
        &self.first_calls
    }

    /// Returns the numbers of threads and tasks without a name.
    pub(crate) fn unnamed(&self) -> &NumberSet<u64> {
        &self.unnamed
    }
}
