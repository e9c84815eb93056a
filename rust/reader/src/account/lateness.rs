//! Why it was late: what the task of a receiver did while its value was overwritten, and where
//! those wait who could end a wait. It is found in what was seen of tasks, by the stamps of calls.
//! What isn't known is not said.

mod pending;
mod stretches;
#[cfg(test)]
mod tests;
mod texts;

pub use pending::PendingTask;
pub(super) use pending::all as pending;
use yovanelum_record::listed::{IntoList, Keep, PushAll};

use super::Context;
use super::history::History;
use std::cell::RefCell;
use stretches::{Stretch, TaskDoing};
use texts::LateTexts;
use yovanelum_record::journal::{Run, RunEntry};
use yovanelum_record::numbered::{NumberMap, NumberSet};
use yovanelum_record::sidecar::{SeenPoll, SeenTask, Sidecar, TasksSeen, WaitingCall};
use yovanelum_record::sorting::sort_by_key;
use yovanelum_record::visible;

/// How many lines a fact has at most.
const MOST_LINES: usize = 3;

/// A part of the time that is less than one in this number isn't told beside others.
const LEAST_PART: u64 = 10;

/// How many tasks that could end a wait are named.
const MOST_SENDERS: usize = 2;

/// What was seen of the tasks of a run.
pub(super) struct Lateness<'a> {
    seen: Option<&'a TasksSeen>,
    // Where each handle's calls were made, as indexes into the locations.
    calls: NumberMap<(u32, u32), NumberSet<usize>>,
    skipped: SkippedChanges,
    // The stamps between which something was told of tasks.
    spans: RefCell<Vec<(u64, u64)>>,
}

/// A receiver that was late.
#[derive(Clone, Copy)]
pub(super) struct Late {
    pub(super) channel: u32,
    pub(super) receiver: u32,
    /// The actor that receives by it.
    pub(super) actor: u64,
    /// The place of its last receive, or 0.
    pub(super) received: u64,
    /// The place of a later call of the actor with it, or 0.
    pub(super) told: u64,
    /// Since this place there was something to receive.
    pub(super) since: u64,
    /// The place of the send that came too early for it.
    pub(super) sent: u64,
    /// How many values the channel retains.
    pub(super) retained: u64,
}

impl<'a> Lateness<'a> {
    pub(super) fn of(run: &Run, names: &'a Sidecar, history: &History) -> Lateness<'a> {
        let seen = names.tasks_seen.as_ref();
        let mut calls: NumberMap<_, NumberSet<usize>> = NumberMap::new();
        let mut skipped = SkippedChanges::default();
        for (place, entry) in run.entries().filter(|_| seen.is_some()) {
            skipped.note(place, &entry);
            let of_channel = names.calls.get(&entry.channel.into());
            let at = of_channel.and_then(|it| it.get(history.index_on_channel(place)));
            if let Some(at) = at.copied().flatten() {
                let key = (entry.channel, entry.handle);
                calls.get_or_default(key).insert(at);
            }
        }
        for call in names.waiting.iter().chain(&names.dropped_waits) {
            if let Some(at) = call.location.filter(|_| seen.is_some()) {
                let key = (call.channel as u32, call.handle as u32);
                calls.get_or_default(key).insert(at);
            }
        }
        Lateness {
            seen,
            calls,
            skipped,
            spans: RefCell::default(),
        }
    }

    /// Returns the changes that were replaced before a receiver looked, the last such ones, and the
    /// place of its call before them, or 0.
    pub(super) fn skipped(&self, channel: u32, receiver: u32) -> Option<SkippedSpan> {
        self.skipped.last.get(&(channel, receiver)).copied()
    }

    /// Returns the stamps between which something was told of tasks.
    pub(super) fn into_spans(self) -> Vec<(u64, u64)> {
        self.spans.into_inner()
    }

    fn note(&self, from: u64, to: u64) {
        self.spans.borrow_mut().push((from, to));
    }
}

/// Changes between two calls of a receiver. All but the last were replaced before it looked.
#[derive(Clone, Copy)]
pub(super) struct SkippedSpan {
    /// The place of the call before them, or 0.
    pub(super) before: u64,
    /// The places of the first and the last of them.
    pub(super) first: u64,
    pub(super) last: u64,
}

/// Which changes each receiver skipped last.
#[derive(Default)]
struct SkippedChanges {
    // The places of the changes, by channel.
    sent: NumberMap<u32, Vec<u64>>,
    // The place of the last call of each handle.
    used: NumberMap<(u32, u32), u64>,
    last: NumberMap<(u32, u32), SkippedSpan>,
}

impl SkippedChanges {
    /// Notes an entry. They come in their order.
    fn note(&mut self, place: u64, entry: &RunEntry) {
        let sent = self.sent.get_or_default(entry.channel);
        if is_sent(entry) {
            sent.push(place);
            return;
        }
        let key = (entry.channel, entry.handle);
        let before = self.used.insert(key, place).unwrap_or(0);
        let since = sent.partition_point(|sent| *sent < before);
        if let [first, .., last] = sent[since..] {
            let skipped = SkippedSpan {
                before,
                first,
                last,
            };
            self.last.insert(key, skipped);
        }
    }
}

/// Whether a call sent a value to a channel, or changed it.
fn is_sent(entry: &RunEntry) -> bool {
    entry.value.is_some() && entry.reply.is_change()
}

/// Returns the poll of a task in which the call with this stamp was made, by its index.
fn poll_of(task: &SeenTask, stamp: u64) -> Option<usize> {
    let next = task.polls.partition_point(|poll| poll.before < stamp);
    let index = next.checked_sub(1)?;
    (stamp <= task.polls[index].last()).then_some(index)
}

/// Returns the task that made one of the calls with these stamps as this actor, or that alone is
/// this actor. Of tasks that are polled in each other's polls, it is the innermost.
fn task_of(seen: &TasksSeen, actor: u64, stamps: &[u64]) -> Option<usize> {
    let of_actor = seen.tasks.iter().enumerate();
    let of_actor = of_actor.filter(|(_, task)| task.actor == Some(actor));
    let has_made = |task: &SeenTask| stamps.iter().any(|stamp| poll_of(task, *stamp).is_some());
    let all: Vec<_> = of_actor.listed();
    let mut callers = all.iter().filter(|(_, task)| has_made(task));
    let first = callers.next().map(|(index, _)| *index);
    let caller = first.map(|first| {
        // The tasks are in the order in which they began, so those within come later.
        callers.fold(first, |outer, (index, task)| match task.within {
            Some(within) if within == outer => *index,
            _ => outer,
        })
    });
    let alone = match all[..] {
        [(index, _)] => Some(index),
        _ => None,
    };
    caller.or(alone)
}

/// Says why a receiver was late, in the order of time.
pub(super) fn lines(context: &Context<'_>, late: &Late) -> Vec<String> {
    let Some(seen) = context.lateness.seen else {
        return vec![];
    };
    let stamp = |place: u64| {
        if place == 0 {
            0
        } else {
            context.run.entry(place).stamp
        }
    };
    let stamps = [stamp(late.received), stamp(late.told)];
    let stamps = stamps.iter().copied();
    let stamps: Vec<_> = stamps.filter(|stamp| *stamp > 0).listed();
    let Some(task) = task_of(seen, late.actor, &stamps) else {
        return vec!["it isn't polled by a task that is seen".to_string()];
    };
    let reasons = Reasons {
        context,
        seen,
        late,
        task,
        texts: LateTexts::new(context, seen),
        window: (stamp(late.since).saturating_sub(1), stamp(late.sent)),
    };
    context.lateness.note(reasons.window.0, reasons.window.1);
    reasons.lines()
}

/// What is looked at to say why a receiver was late.
struct Reasons<'a> {
    context: &'a Context<'a>,
    seen: &'a TasksSeen,
    late: &'a Late,
    // The index of its task.
    task: usize,
    texts: LateTexts<'a>,
    // The stamps of calls while there was something to receive: above the first, up to the second.
    window: (u64, u64),
}

impl Reasons<'_> {
    fn own(&self) -> &SeenTask {
        &self.seen.tasks[self.task]
    }

    fn lines(&self) -> Vec<String> {
        if let Some(line) = self.own_sends() {
            return vec![line];
        }
        let mut stretches = stretches::within(self.own(), self.window, self.seen.now);
        stretches.keep(|stretch| !self.is_idle(stretch));
        if let Some((lines, is_alone)) = self.burst() {
            let works =
                |it: &Stretch| !matches!(it.doing, TaskDoing::Ready) && it.to >= self.window.1;
            if is_alone || !stretches.iter().any(works) {
                return lines;
            }
        }
        let mut told = self.worth_telling(stretches);
        sort_by_key(&mut told, |stretch| stretch.from);
        for stretch in &told {
            self.context.lateness.note(stretch.from, stretch.to);
        }
        self.texts_of(&told)
    }

    /// Returns the texts of stretches. Waits at one place are told together.
    fn texts_of(&self, told: &[Stretch]) -> Vec<String> {
        let mut lines: Vec<String> = vec![];
        let mut index = 0;
        while let Some(stretch) = told.get(index) {
            let alike = told[index..]
                .iter()
                .take_while(|it| self.is_alike(stretch, it))
                .count();
            let together = &told[index..index + alike];
            lines.push_all(self.text(together));
            index += alike;
        }
        lines.truncate(MOST_LINES);
        lines
    }

    /// Whether two stretches are told together.
    fn is_alike(&self, one: &Stretch, other: &Stretch) -> bool {
        let waits = one.doing == TaskDoing::Waited && other.doing == TaskDoing::Waited;
        one.index == other.index && one.doing == other.doing
            || waits && self.waited_at(one.index) == self.waited_at(other.index)
    }

    fn waited_at(&self, index: usize) -> Vec<usize> {
        texts::waited_at(self.seen, self.own(), index)
    }

    fn text(&self, together: &[Stretch]) -> Option<String> {
        let (first, last) = (together.first()?, together.last()?);
        let whole = Stretch {
            to: last.to,
            time: together.iter().map(|it| it.time).sum(),
            ..*first
        };
        match first.doing {
            TaskDoing::Waited => {
                let count = together.len();
                Some(
                    self.texts
                        .waited("its task", self.own(), &whole, (last.index, count)),
                )
            }
            TaskDoing::Ready => Some(self.ready(&whole)),
            TaskDoing::Polled => Some(self.worked(&whole)),
        }
    }

    /// Returns the stretches that took a good part of the time, or where there is none to tell, in
    /// which the send came and those of waits.
    fn worth_telling(&self, stretches: Vec<Stretch>) -> Vec<Stretch> {
        let is_last = |stretch: &Stretch| stretch.to >= self.window.1;
        let total: u64 = stretches.iter().map(|stretch| stretch.time).sum();
        let has_times = self.seen.has_times && total > 0;
        let is_told = |stretch: &Stretch| {
            if has_times {
                stretch.time * LEAST_PART >= total
            } else {
                is_last(stretch) || stretch.doing == TaskDoing::Waited
            }
        };
        let mut told = stretches;
        told.keep(is_told);
        // Many short waits at one place are told as one.
        if told.len() > MOST_LINES * 16 {
            sort_by_key(&mut told, |stretch| std::cmp::Reverse(stretch.time));
            told.truncate(MOST_LINES * 16);
        }
        told
    }

    /// Whether it waits for what the receiver receives, and so isn't late.
    fn is_idle(&self, stretch: &Stretch) -> bool {
        let places = &self.own().polls[stretch.index].places;
        let calls = self
            .context
            .lateness
            .calls
            .get(&(self.late.channel, self.late.receiver));
        stretch.doing == TaskDoing::Waited
            && places.iter().any(|place| {
                let place = &self.seen.places[*place];
                let at = place.location.filter(|_| place.is_own);
                at.is_some_and(|at| calls.is_some_and(|calls| calls.contains(&at)))
            })
    }

    /// Returns who sent the value that came too early, as a task, and in which poll.
    fn sender(&self) -> Option<(usize, &SeenPoll)> {
        let entry = self.context.run.entry(self.late.sent);
        let sender = task_of(self.seen, entry.actor.into(), &[entry.stamp])?;
        let task = &self.seen.tasks[sender];
        Some((sender, &task.polls[poll_of(task, entry.stamp)?]))
    }

    /// Returns the places of the sends to the channel by who sent the value that came too early,
    /// with stamps between these.
    fn sends(&self, (after, to): (u64, u64)) -> Vec<u64> {
        let run = self.context.run;
        let by = run.entry(self.late.sent);
        let places = run.place_of_stamp(after) + 1..=run.place_of_stamp(to);
        let sends = places.filter(|place| {
            let entry = run.entry(*place);
            (entry.channel, entry.actor) == (by.channel, by.actor) && is_sent(&entry)
        });
        sends.listed()
    }

    /// Says that the task of the receiver has itself sent what it didn't receive.
    fn own_sends(&self) -> Option<String> {
        let (sender, _) = self.sender()?;
        if sender != self.task {
            return None;
        }
        let until = match self.late.told {
            0 => self.window.1,
            told => self.context.run.entry(told).stamp,
        };
        let sends = self.sends((self.window.0, until)).len() as u64;
        let values = visible::counted(sends, "value");
        Some(format!("its own task sent {values} before it received"))
    }

    /// Says that more was sent in one poll than the channel retains, if it was, and what woke the
    /// sender for that poll, if it is known. The second is whether nobody else had a turn.
    fn burst(&self) -> Option<(Vec<String>, bool)> {
        let (sender, poll) = self.sender()?;
        let up_to_it = self.sends((poll.before, self.window.1)).len() as u64;
        if up_to_it <= self.late.retained {
            return None;
        }
        let sends = self.sends((poll.before, poll.last()));
        let is_here = |task: &SeenTask| task.polls.iter().all(|it| it.thread == poll.thread);
        let is_alone = self.seen.tasks.iter().all(is_here);
        self.context.lateness.note(poll.before, poll.last());
        let task = &self.seen.tasks[sender];
        let mut lines = vec![self.texts.burst(task, &sends, is_alone)];
        lines.push_all(self.texts.woken_for(task, poll));
        Some((lines, is_alone))
    }

    /// Says that it was ready, and who ran in its place.
    fn ready(&self, stretch: &Stretch) -> String {
        let poll = &self.own().polls[stretch.index];
        if self.is_left_alone(stretch) {
            let call = self.texts.since(poll.after);
            return format!("nobody polled it after {call}");
        }
        let texts = &self.texts;
        let from = texts.since(stretch.from);
        let ready = match stretch.to {
            u64::MAX => format!("it was ready from {from} on, and not polled since"),
            to => format!(
                "it was ready from {from} on, and not polled until {}",
                texts.since(to)
            ),
        };
        match texts.busy(self.task, stretch, self.window) {
            Some(busy) => format!("{ready}: {busy}"),
            None => ready,
        }
    }

    /// Whether the task in whose polls it is polled was polled meanwhile, and didn't poll it.
    fn is_left_alone(&self, stretch: &Stretch) -> bool {
        let Some(around) = self.own().within.map(|within| &self.seen.tasks[within]) else {
            return false;
        };
        let (from, to) = stretch.times;
        let mut polls = around.polls.iter();
        polls.any(|poll| poll.begin >= from && poll.end.is_some_and(|end| end <= to))
    }

    /// Says that it worked in a poll of its own.
    fn worked(&self, stretch: &Stretch) -> String {
        let poll = &self.own().polls[stretch.index];
        let received = self.late.received;
        let entry = (received > 0).then(|| self.context.run.entry(received));
        let entry = entry.filter(|entry| poll.before < entry.stamp && entry.stamp <= poll.last());
        let time = self.texts.time(stretch.time);
        let its = if poll.end.is_some() {
            "its own poll"
        } else {
            "a poll that has not ended"
        };
        match entry {
            Some(entry) => {
                let value = self.context.naming.returned(&entry);
                let at = self.context.naming.call_source(entry.channel, received);
                let at = at.map_or(String::new(), |at| {
                    format!(", after {}", visible::line_of(at))
                });
                let time = time.map_or(String::new(), |time| format!(": {time}"));
                format!("it worked on {value}{time} in {its}{at}")
            }
            None => {
                let at = self.texts.resumed_at(self.own(), stretch.index);
                let at = at.map_or(String::new(), |at| format!(", after {at}"));
                let time = time.map_or(String::new(), |time| format!(" {time}"));
                format!("it worked{time} in {its}{at}")
            }
        }
    }
}

/// Says where those wait who could end a wait: who used this channel's handles last, which are
/// alive at this place.
pub(super) fn of_wait(context: &Context<'_>, call: &WaitingCall, at: u64) -> Vec<String> {
    let Some(seen) = context.lateness.seen else {
        return vec![];
    };
    let texts = LateTexts::new(context, seen);
    let history = context.history.channel(call.channel as u32);
    let waits_for_receivers = call.call == "closed";
    let handles = history.handles().filter(|(_, handle)| {
        handle.is_receiver == waits_for_receivers && !handle.is_weak && handle.is_alive_at(at)
    });
    let users: NumberSet<_> = handles.map(|(_, handle)| handle.last_use).collect();
    let until = call.until.unwrap_or(u64::MAX);
    let mut told = NumberSet::new();
    let lines = users
        .into_iter()
        .filter(|place| *place > 0)
        .filter_map(|place| {
            let entry = context.run.entry(place);
            let index = task_of(seen, entry.actor.into(), &[entry.stamp])?;
            let task = &seen.tasks[index];
            let is_new = u64::from(entry.actor) != call.actor && told.insert(index);
            let stretch = stretches::at(task, until, seen.now).filter(|_| is_new)?;
            context.lateness.note(stretch.from, stretch.to);
            let name = texts.name(task);
            (stretch.doing == TaskDoing::Waited)
                .then(|| texts.waited(&name, task, &stretch, (stretch.index, 1)))
        });
    lines.take(MOST_SENDERS).listed()
}
