//! The words for what tasks did.

use super::stretches::Stretch;
use crate::account::Context;
use yovanelum_record::listed::IntoList;
use yovanelum_record::sidecar::{
    SeenPlace, SeenPoll, SeenTask, SeenWake, SourceLocation, TasksSeen, WokenBy,
};
use yovanelum_record::visible;

/// How many places of one wait are named.
const MOST_PLACES: usize = 2;

/// Which part of the time a task has to have run that another was ready, to be named.
const PART_OF_READY: u64 = 2;

/// What the texts are made of.
pub(super) struct LateTexts<'a> {
    context: &'a Context<'a>,
    seen: &'a TasksSeen,
}

impl<'a> LateTexts<'a> {
    pub(super) fn new(context: &'a Context<'a>, seen: &'a TasksSeen) -> LateTexts<'a> {
        LateTexts { context, seen }
    }

    /// Returns the last call with a stamp up to this one, as `call 3` or `the start`.
    pub(super) fn since(&self, stamp: u64) -> String {
        self.context.since(self.context.place_of(stamp))
    }

    /// Returns a time, if times are told.
    pub(super) fn time(&self, microseconds: u64) -> Option<String> {
        self.seen.has_times.then(|| visible::duration(microseconds))
    }

    /// Returns what a task is called.
    pub(super) fn name(&self, task: &SeenTask) -> String {
        match task.actor {
            Some(actor) => self.context.naming.actor(actor),
            None => visible::name(&task.name),
        }
    }

    fn source(&self, index: Option<usize>) -> Option<&'a SourceLocation> {
        index.and_then(|index| self.context.names.locations.get(index))
    }

    /// Says that a task waited, where, and who woke it from the last of several waits.
    pub(super) fn waited(
        &self,
        who: &str,
        task: &SeenTask,
        stretch: &Stretch,
        (last, count): (usize, usize),
    ) -> String {
        let between = match stretch.to {
            u64::MAX => format!("from {} on", self.since(stretch.from)),
            to => format!("from {} to {}", self.since(stretch.from), self.since(to)),
        };
        let time = self.time(stretch.time);
        let time = time.map_or(String::new(), |time| format!(" {time}"));
        let times = if count > 1 {
            format!(" ({count} times)")
        } else {
            String::new()
        };
        let places = self.in_places(waited_at(self.seen, task, stretch.index));
        let woken = task.polls[last]
            .woken
            .as_ref()
            .filter(|_| stretch.to != u64::MAX);
        let by = woken.and_then(|woken| self.woken_by(task, woken));
        let by = by.map_or(String::new(), |by| format!("; woken by {by}"));
        format!("{between} {who} waited{time}{times}{places}{by}")
    }

    /// Returns the places where a task waits, as ` in Mutex::lock, src/db.rs:40`.
    pub(super) fn in_places(&self, places: Vec<usize>) -> String {
        if places.iter().any(|place| !is_known(self.seen, *place)) {
            let since = self.seen.unknown_since.map(|stamp| self.since(stamp));
            let since = since.map_or(String::new(), |since| format!(" from {since} on"));
            return format!(", where isn't known, since tasks wait so often{since}");
        }
        let texts: Vec<_> = places
            .iter()
            .filter_map(|place| self.place(*place))
            .listed();
        match texts.as_slice() {
            [] => String::new(),
            texts => format!(" in {}", visible::first(texts, MOST_PLACES, " or ")),
        }
    }

    /// Returns a place as `Mutex::lock, src/db.rs:40`.
    fn place(&self, index: usize) -> Option<String> {
        let place = &self.seen.places[index];
        let what = visible::path(&place.what);
        match (what.as_str(), self.own_place(place)) {
            ("", None) => None,
            ("", Some(at)) => Some(at),
            (what, None) => Some(what.to_string()),
            (what, Some(at)) => Some(format!("{what}, {at}")),
        }
    }

    /// Returns where a place is in the program: its line, or its function where a build has none.
    fn own_place(&self, place: &SeenPlace) -> Option<String> {
        let at = self.source(place.location).map(visible::line_of);
        let function = place.function.as_ref();
        at.or_else(|| function.map(|it| format!("in {}", visible::path(it))))
    }

    /// Returns who woke a task, and where, as far as it is known.
    pub(super) fn woken_by(&self, task: &SeenTask, woken: &SeenWake) -> Option<String> {
        let place = woken.place.map(|place| &self.seen.places[place]);
        let at = place.and_then(|place| self.own_place(place));
        let at = at.map_or(String::new(), |at| format!(", {at}"));
        Some(match &woken.by {
            WokenBy::Task(by) if std::ptr::eq(&raw const self.seen.tasks[*by], task) => {
                format!("itself{at}")
            }
            WokenBy::Task(by) => format!("{}{at}", self.name(&self.seen.tasks[*by])),
            WokenBy::End(by) => format!("the end of {}", self.name(&self.seen.tasks[*by])),
            WokenBy::Timer => "a timer".to_string(),
            WokenBy::Runtime => "the runtime".to_string(),
            WokenBy::Thread(name) => format!("thread {}", visible::name(name)),
            WokenBy::Somebody => return None,
        })
    }

    /// Says who woke a task for a poll, and where it waited before, if who did is known.
    pub(super) fn woken_for(&self, task: &SeenTask, poll: &SeenPoll) -> Option<String> {
        let index = task.polls.iter().position(|it| std::ptr::eq(it, poll))?;
        let before = index.checked_sub(1)?;
        let woken = task.polls[before].woken.as_ref()?;
        let by = self.woken_by(task, woken)?;
        let places = waited_at(self.seen, task, before);
        let known = places.iter().all(|place| is_known(self.seen, *place));
        let places = known.then(|| self.in_places(places));
        let places = places.filter(|places| !places.is_empty());
        let waited = places.map_or(String::new(), |places| format!("; it waited{places}"));
        Some(format!("{} was woken by {by}{waited}", self.name(task)))
    }

    /// Returns the line at which a poll goes on: where the one before it waited.
    pub(super) fn resumed_at(&self, task: &SeenTask, index: usize) -> Option<String> {
        let before = &task.polls[index.checked_sub(1)?];
        let place = woken_at(before).or(before.places.first().copied())?;
        let place = &self.seen.places[place];
        self.source(place.location).map(visible::line_of)
    }

    /// Says that a task sent so much in one poll.
    pub(super) fn burst(&self, sender: &SeenTask, sends: &[u64], is_alone: bool) -> String {
        let name = self.name(sender);
        let values = visible::counted(sends.len() as u64, "value");
        let source = |place: Option<&u64>| {
            let entry = self.context.run.entry(*place?);
            self.context.naming.call_source(entry.channel, *place?)
        };
        let lines = match (source(sends.first()), source(sends.last())) {
            (Some(first), Some(last)) if first.file != last.file => {
                format!(
                    " ({} to {})",
                    visible::line_of(first),
                    visible::line_of(last)
                )
            }
            (Some(first), Some(last)) if first.line != last.line => {
                format!(" ({} to {})", visible::line_of(first), last.line)
            }
            (Some(first), _) => format!(" ({})", visible::line_of(first)),
            (None, _) => String::new(),
        };
        let end = if is_alone {
            ", which gives nobody a turn"
        } else {
            ""
        };
        format!("{name} sent {values} in one poll{lines}{end}")
    }

    /// Says who ran while the task of this index was ready, on the thread that polled it then: in
    /// one poll all the time of the calls of this window, or else most of the time.
    pub(super) fn busy(&self, own: usize, stretch: &Stretch, window: (u64, u64)) -> Option<String> {
        let polls = &self.seen.tasks[own].polls;
        let next = polls.get(stretch.index + 1);
        let thread = next.unwrap_or(&polls[stretch.index]).thread;
        let ((from, to), now) = (stretch.times, self.seen.now);
        // A thread that isn't run for a while has polls of any length.
        let (after, last) = (stretch.from.max(window.0), stretch.to.min(window.1));
        let weigh = |poll: &SeenPoll| {
            let spans = poll.before <= after && last <= poll.last();
            let part = poll.end.unwrap_or(now).min(to);
            let part = part.saturating_sub(poll.begin.max(from));
            // One that began after the last of the calls was in nobody's way.
            let is_here = poll.thread == thread && poll.before < window.1;
            is_here.then_some((spans, part, poll.begin))
        };
        let mut most: Option<(Weight, &SeenTask, usize)> = None;
        for (index, task) in self.seen.tasks.iter().enumerate() {
            let is_other = index != own && !self.is_around(index, own);
            let heaviest = heaviest(task, stretch.times, &weigh).filter(|_| is_other);
            if let Some((weight, poll)) =
                heaviest.filter(|(it, _)| is_most(it, most.map(|it| it.0)))
            {
                most = Some((weight, task, poll));
            }
        }
        let ((spans, part, _), task, index) = most?;
        let poll = &task.polls[index];
        let time = poll.end.unwrap_or(now) - poll.begin;
        let is_most = spans || part * PART_OF_READY >= stretch.time;
        if !is_most || !self.seen.has_times {
            return None;
        }
        let at = self.resumed_at(task, index);
        let at = at.map_or(String::new(), |at| format!(", from {at}"));
        let time = visible::duration(time);
        Some(format!(
            "{} ran {time} without giving way{at}",
            self.name(task)
        ))
    }

    /// Whether a task is polled in the polls of the other.
    fn is_around(&self, around: usize, task: usize) -> bool {
        let mut within = self.seen.tasks[task].within;
        let mut left = self.seen.tasks.len();
        while let Some(outer) = within.filter(|_| left > 0) {
            if outer == around {
                return true;
            }
            left -= 1;
            within = self.seen.tasks[outer].within;
        }
        false
    }
}

/// How much a poll was in the way of a task: whether it spans the calls, for how long it was there
/// meanwhile, and when it began.
type Weight = (bool, u64, u64);

fn is_most(weight: &Weight, before: Option<Weight>) -> bool {
    before.is_none_or(|before| before <= *weight)
}

/// Returns the poll of a task that was most in the way between these times, as an index.
fn heaviest(
    task: &SeenTask,
    (from, to): (u64, u64),
    weigh: &dyn Fn(&SeenPoll) -> Option<Weight>,
) -> Option<(Weight, usize)> {
    let has_ended = |poll: &SeenPoll| poll.end.is_some_and(|end| end < from);
    let first = task.polls.partition_point(has_ended);
    let mut most: Option<(Weight, usize)> = None;
    for (index, poll) in task.polls.iter().enumerate().skip(first) {
        if poll.begin > to {
            break;
        }
        if let Some(weight) = weigh(poll).filter(|it| is_most(it, most.map(|it| it.0))) {
            most = Some((weight, index));
        }
    }
    most
}

/// Whether anything is known of a place.
fn is_known(seen: &TasksSeen, place: usize) -> bool {
    let place = &seen.places[place];
    !place.what.is_empty() || place.location.is_some() || place.function.is_some()
}

/// Returns the place of the waker by which a task was woken after a poll, if that was kept there at
/// the poll's end.
fn woken_at(poll: &SeenPoll) -> Option<usize> {
    let kept_at = poll.woken.as_ref()?.kept_at?;
    poll.places.contains(&kept_at).then_some(kept_at)
}

/// Returns the places where a task waited after the poll with this index: the last one, if it waits
/// there after its next poll too; else the one by which it was woken; else all.
pub(super) fn waited_at(seen: &TasksSeen, task: &SeenTask, index: usize) -> Vec<usize> {
    let poll = &task.polls[index];
    let next = task.polls.get(index + 1).filter(|next| next.end.is_some());
    let stays = poll.places.first().filter(|place| {
        next.is_some_and(|next| next.places.contains(place)) && is_known(seen, **place)
    });
    let kept_at = woken_at(poll).filter(|place| is_known(seen, *place));
    match stays.copied().or(kept_at) {
        Some(place) => vec![place],
        None => poll.places.clone(),
    }
}
