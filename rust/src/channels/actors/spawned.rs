//! Tasks that the package which stands for tokio spawns. Those that nobody named are known by where
//! they come from.

use super::caller::dropping;
use super::explored::{ExploredTask, note_facade, note_wait};
use super::origin::{Origin, spawned_at};
use super::own::OwnCaller;
use crate::channels::recorder::is_any_entered;
use crate::channels::turns::{explored, holds_task};
use crate::channels::whereabouts::{SeenPolls, run_whole};
use std::any;
use std::fmt;
use std::panic::Location;
use std::task::{Context, Poll};

/// The type of futures that have a name, as the compiler writes it.
const NAMED: &str = "yovanelum::channels::actors::named::Named<";

/// What the task of a future is to its recorder and to a run that is explored: it is polled, and
/// its future is dropped, by way of this.
///
/// No part of what this crate promises: it is for the package that stands for tokio.
#[doc(hidden)]
pub struct SpawnedTask {
    caller: OwnCaller,
    // In a run that is explored.
    explored: Option<Box<ExploredTask>>,
    seen: SeenPolls,
}

/// Returns what a task is that is spawned where the caller is called. There is none for a future
/// with a name, which goes by that, without a recorder, and where the caller can't be told apart.
///
/// No part of what this crate promises: it is for the package that stands for tokio.
#[doc(hidden)]
#[inline]
#[track_caller]
pub fn spawned_task<F>(_future: &F) -> Option<SpawnedTask> {
    if is_any_entered() {
        SpawnedTask::new(any::type_name::<F>(), Location::caller())
    } else {
        None
    }
}

/// Returns what a function is that is given here to a thread on which it may block, if it has a
/// name. In a run that is explored it has one, and its start is chosen as the polls of tasks are.
///
/// No part of what this crate promises: it is for the package that stands for tokio.
#[doc(hidden)]
#[inline]
#[track_caller]
pub fn blocking_task() -> Option<SpawnedTask> {
    if is_any_entered() {
        SpawnedTask::of_place(Location::caller())
    } else {
        None
    }
}

impl SpawnedTask {
    fn new(future: &str, at: &'static Location<'static>) -> Option<SpawnedTask> {
        if explored().is_some() {
            note_facade();
        }
        if future.starts_with(NAMED) {
            return None;
        }
        SpawnedTask::of_place(at)
    }

    fn of_place(at: &'static Location<'static>) -> Option<SpawnedTask> {
        let is_explored = explored().is_some();
        let origin = spawned_at(at);
        let explored = is_explored.then(|| {
            let name = match &origin {
                Some(origin) => origin.to_string(),
                // No task whose caller can be told apart has this name.
                None => format!("{} by others", Origin::of_place(at)),
            };
            Box::new(ExploredTask::new(name))
        });
        (origin.is_some() || explored.is_some()).then(|| SpawnedTask::of(origin, explored))
    }

    fn of(origin: Option<Origin>, explored: Option<Box<ExploredTask>>) -> SpawnedTask {
        SpawnedTask {
            caller: OwnCaller::task(origin),
            explored,
            seen: SeenPolls::default(),
        }
    }

    /// Polls the future of the task by this function, unless it isn't its turn.
    #[inline]
    pub fn poll<T>(
        &mut self,
        context: &mut Context<'_>,
        poll: impl FnOnce(&mut Context<'_>) -> Poll<T>,
    ) -> Poll<T> {
        if self.is_held(context) {
            return Poll::Pending;
        }
        let _within = self.explored.as_ref().and_then(|task| task.enter());
        let _entered = self.caller.enter();
        let polled = self.seen.poll_task(context, poll);
        if polled.is_pending() {
            let task = self.explored.as_ref().and_then(|task| task.task());
            note_wait(task, &self.seen);
        }
        polled
    }

    #[inline]
    fn is_held(&mut self, context: &Context<'_>) -> bool {
        if let Some(explored) = &mut self.explored {
            return explored.is_held(context);
        }
        let recorder = self.caller.recorder();
        holds_task(self.caller.name(), recorder, context)
    }

    /// Drops the future of the task by this function. The calls that this makes are the task's,
    /// also if it is cancelled.
    pub fn drop_future(&mut self, drop: impl FnOnce()) {
        if let Some(explored) = &self.explored {
            explored.leave();
        }
        let _within = self.explored.as_ref().and_then(|task| task.enter());
        let _entered = self.caller.enter();
        dropping(|| self.seen.drop_future(drop));
    }

    /// Calls a function, which is the whole task.
    pub fn run<T>(mut self, function: impl FnOnce() -> T) -> T {
        if let Some(explored) = &mut self.explored {
            explored.begin_blocking();
        }
        let _within = self.explored.as_ref().and_then(|task| task.enter());
        let _entered = self.caller.enter();
        run_whole(function)
    }
}

impl fmt::Debug for SpawnedTask {
    fn fmt(&self, f: &mut fmt::Formatter<'_>) -> fmt::Result {
        f.debug_struct("SpawnedTask")
            .field("name", &self.caller.known_name())
            .finish_non_exhaustive()
    }
}
