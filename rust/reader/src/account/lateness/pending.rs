//! The tasks that wait for something else than a call of a channel, at the end of a run that hangs,
//! or that failed since a call waited.

use super::stretches::{self, TaskDoing};
use super::texts::{LateTexts, waited_at};
use crate::account::Context;
use yovanelum_record::listed::IntoList;
use yovanelum_record::sidecar::SeenPoll;
use yovanelum_record::sorting::sort_by_key;

/// A task that waits.
#[derive(Debug)]
pub struct PendingTask {
    pub name: String,
    pub actor: Option<u64>,
    /// How many calls had been made when it began to wait.
    pub since: u64,
    /// Who waits, in what, since which call and for how long, and who woke it last.
    pub text: String,
}

/// Returns the tasks that wait, in the order in which they began to.
pub(in crate::account) fn all(context: &Context<'_>) -> Vec<PendingTask> {
    let Some(seen) = context.lateness.seen else {
        return vec![];
    };
    let texts = LateTexts::new(context, seen);
    let is_elsewhere = |poll: &SeenPoll| {
        let mut places = poll.places.iter();
        places.any(|place| !seen.places[*place].is_own)
    };
    let last = seen.tasks.iter().filter_map(|task| {
        let stretch = stretches::at(task, u64::MAX, seen.now)?;
        let poll = &task.polls[stretch.index];
        let waits = stretch.doing != TaskDoing::Polled && is_elsewhere(poll);
        waits.then_some((task, stretch))
    });
    let mut last: Vec<_> = last.listed();
    sort_by_key(&mut last, |(_, stretch)| stretch.times.0);
    let pending = last.iter().map(|(task, stretch)| {
        let poll = &task.polls[stretch.index];
        let name = texts.name(task);
        let places = texts.in_places(waited_at(seen, task, stretch.index));
        let time = texts.time(seen.now.saturating_sub(poll.end.unwrap_or(seen.now)));
        let time = time.map_or(String::new(), |time| format!(", for {time}"));
        let since = context.place_of(poll.after);
        let before = stretch.index.checked_sub(1).map(|index| &task.polls[index]);
        let woken = match stretch.doing {
            TaskDoing::Ready => poll
                .woken
                .as_ref()
                .map(|woken| (woken, ", and not polled since")),
            _ => before
                .and_then(|before| before.woken.as_ref())
                .map(|woken| (woken, "")),
        };
        let woken = woken.and_then(|(woken, end)| {
            let by = texts.woken_by(task, woken)?;
            Some(format!("; last woken by {by}{end}"))
        });
        let woken = woken.unwrap_or_default();
        PendingTask {
            text: format!(
                "{name}{places}, since {}{time}{woken}",
                context.since(since)
            ),
            actor: task.actor,
            name,
            since,
        }
    });
    pending.listed()
}
