//! What was seen of the tasks of a test: when each was polled, where it waited, and who woke it.

use super::json::Json;
use super::reading::{list, members, number, optional, optional_text, text_of};
use super::{push_key, push_list, push_optional, push_string};
use crate::listed::{IntoList, Keep};
use std::fmt::Write;

/// What was seen of the tasks of a test.
///
/// Stamps are those of the journal: a call with a stamp above the first of two, and not above the
/// second, was made between them.
#[derive(Clone, Debug, Default, PartialEq, Eq)]
pub struct TasksSeen {
    /// Whether times are told. The clock of a test may be paused, and a replay has its own.
    pub has_times: bool,
    /// When it was noted, in microseconds since the test began.
    pub now: u64,
    /// From which stamp on not each place was looked at where a task waits, since there were so
    /// many.
    pub unknown_since: Option<u64>,
    pub places: Vec<SeenPlace>,
    pub tasks: Vec<SeenTask>,
}

/// A place where tasks wait, or from which they are woken.
#[derive(Clone, Debug, Default, PartialEq, Eq)]
pub struct SeenPlace {
    /// What is called there, as `Mutex::lock`. It is empty if it isn't known.
    pub what: String,
    /// Where it is called, as an index into the locations.
    pub location: Option<usize>,
    /// The function that calls it, if the program has no lines of its sources.
    pub function: Option<String>,
    /// Whether it is a call of a channel of this crate.
    pub is_own: bool,
}

/// A task, or a future with a name, or what a thread is blocked on.
#[derive(Clone, Debug, Default, PartialEq, Eq)]
pub struct SeenTask {
    pub name: String,
    /// Its number in the journal, if it has made a call.
    pub actor: Option<u64>,
    /// Whether it has completed, or was dropped.
    pub is_over: bool,
    /// The task in whose polls it is polled, as an index into the tasks.
    pub within: Option<usize>,
    /// Its last polls, in their order.
    pub polls: Vec<SeenPoll>,
}

/// A poll of a task. Times are microseconds since the test began.
#[derive(Clone, Debug, Default, PartialEq, Eq)]
pub struct SeenPoll {
    pub begin: u64,
    /// `None` while it goes on.
    pub end: Option<u64>,
    /// The greatest stamp before it, and at its end.
    pub before: u64,
    pub after: u64,
    /// The number of its thread.
    pub thread: u64,
    /// Where its waker was kept at its end, as indexes into the places, the last first.
    pub places: Vec<usize>,
    pub woken: Option<SeenWake>,
}

/// The first wake of a task since a poll of it began.
#[derive(Clone, Debug, PartialEq, Eq)]
pub struct SeenWake {
    pub at: u64,
    /// The greatest stamp then.
    pub stamp: u64,
    pub by: WokenBy,
    /// Where that was, as an index into the places.
    pub place: Option<usize>,
    /// Where the waker was kept by which it was woken.
    pub kept_at: Option<usize>,
}

/// Who wakes a task.
#[derive(Clone, Debug, PartialEq, Eq)]
pub enum WokenBy {
    /// A task that is polled, as an index into the tasks.
    Task(usize),
    /// A task that has ended.
    End(usize),
    /// A timer of the runtime.
    Timer,
    /// The runtime, as for a socket.
    Runtime,
    /// A thread that polls no task.
    Thread(String),
    /// A task of which no more is known, or a thread without a name.
    Somebody,
}

impl WokenBy {
    fn word(&self) -> String {
        match self {
            WokenBy::Task(task) => format!("task {task}"),
            WokenBy::End(task) => format!("end {task}"),
            WokenBy::Timer => "timer".to_string(),
            WokenBy::Runtime => "runtime".to_string(),
            WokenBy::Thread(name) => format!("thread {name}"),
            WokenBy::Somebody => "somebody".to_string(),
        }
    }

    fn of_word(word: &str) -> Result<WokenBy, String> {
        let index = |text: &str| text.parse().map_err(|_| format!("`{word}` wakes no task"));
        Ok(match word.split_once(' ') {
            Some(("task", task)) => WokenBy::Task(index(task)?),
            Some(("end", task)) => WokenBy::End(index(task)?),
            Some(("thread", name)) => WokenBy::Thread(name.to_string()),
            None if word == "timer" => WokenBy::Timer,
            None if word == "runtime" => WokenBy::Runtime,
            // A later version may know of others.
            _ => WokenBy::Somebody,
        })
    }

    fn task(&self) -> Option<usize> {
        match self {
            WokenBy::Task(task) | WokenBy::End(task) => Some(*task),
            _ => None,
        }
    }
}

impl SeenPoll {
    /// The greatest stamp that a call of the poll can have.
    pub fn last(&self) -> u64 {
        if self.end.is_some() {
            self.after
        } else {
            u64::MAX
        }
    }
}

impl SeenTask {
    /// Returns the greatest stamp before the poll that comes after the one of this index.
    pub fn until(&self, index: usize) -> u64 {
        self.polls
            .get(index + 1)
            .map_or(u64::MAX, |next| next.before)
    }
}

impl TasksSeen {
    /// Leaves out the polls that are of none of these spans of stamps. Of each task the last two
    /// polls stay, of which the first says who woke it last, and one before each span, which says
    /// where it went on.
    pub fn keep(&mut self, spans: &[(u64, u64)]) {
        for task in &mut self.tasks {
            let is_within = |index: usize| {
                let (from, to) = (task.polls[index].before, task.until(index));
                spans.iter().any(|span| from <= span.1 && span.0 <= to)
            };
            let count = task.polls.len();
            let within: Vec<_> = (0..count).map(is_within).listed();
            let stays = |index: usize| within[index] || index + 2 >= count || within[index + 1];
            let stays: Vec<_> = (0..count).map(stays).listed();
            let mut stays = stays.iter();
            task.polls.keep(|_| stays.next() == Some(&true));
        }
    }

    /// Raises all stamps by as much as those of the calls are.
    pub fn raise(&mut self, by: u64) {
        for task in &mut self.tasks {
            for poll in &mut task.polls {
                poll.before = poll.before.saturating_add(by);
                poll.after = poll.after.saturating_add(by);
                if let Some(woken) = &mut poll.woken {
                    woken.stamp = woken.stamp.saturating_add(by);
                }
            }
        }
        self.unknown_since = self.unknown_since.map(|it| it.saturating_add(by));
    }

    /// Whether all indexes are those of what is there.
    fn is_whole(&self) -> bool {
        let is_place = |place: usize| place < self.places.len();
        let is_task = |task: usize| task < self.tasks.len();
        let is_wake = |woken: &SeenWake| {
            woken.place.is_none_or(is_place)
                && woken.kept_at.is_none_or(is_place)
                && woken.by.task().is_none_or(is_task)
        };
        let is_poll = |poll: &SeenPoll| {
            poll.places.iter().all(|place| is_place(*place))
                && poll.woken.as_ref().is_none_or(is_wake)
        };
        let mut tasks = self.tasks.iter();
        tasks.all(|task| task.within.is_none_or(is_task) && task.polls.iter().all(is_poll))
    }
}

/// Appends the member of the document.
pub(super) fn push(out: &mut String, seen: &TasksSeen) {
    push_key(out, "tasks_seen");
    let (has_times, now) = (seen.has_times, seen.now);
    let _ = write!(out, "{{\"times\": {has_times}, \"now\": {now}");
    if let Some(since) = seen.unknown_since {
        let _ = write!(out, ", \"unknown_since\": {since}");
    }
    out.push_str(", \"places\": ");
    push_list(out, &seen.places, push_place);
    out.push_str(", \"tasks\": ");
    push_list(out, &seen.tasks, push_task);
    out.push('}');
}

fn push_place(out: &mut String, place: &SeenPlace) {
    out.push_str("{\"what\": ");
    push_string(out, &place.what);
    if let Some(location) = place.location {
        let _ = write!(out, ", \"location\": {location}");
    }
    if let Some(function) = &place.function {
        out.push_str(", \"function\": ");
        push_string(out, function);
    }
    out.push_str(if place.is_own {
        ", \"own\": true}"
    } else {
        "}"
    });
}

fn push_task(out: &mut String, task: &SeenTask) {
    out.push_str("{\"name\": ");
    push_string(out, &task.name);
    if let Some(actor) = task.actor {
        let _ = write!(out, ", \"actor\": {actor}");
    }
    if task.is_over {
        out.push_str(", \"over\": true");
    }
    if let Some(within) = task.within {
        let _ = write!(out, ", \"within\": {within}");
    }
    out.push_str(", \"polls\": ");
    push_list(out, &task.polls, push_poll);
    out.push('}');
}

/// Appends a poll, as a list: a document may have thousands.
fn push_poll(out: &mut String, poll: &SeenPoll) {
    let _ = write!(out, "[{}, ", poll.begin);
    push_optional(out, &poll.end);
    let _ = write!(out, ", {}, {}, {}, ", poll.before, poll.after, poll.thread);
    push_list(out, &poll.places, super::push_number);
    if let Some(woken) = &poll.woken {
        let _ = write!(out, ", {}, {}, ", woken.at, woken.stamp);
        push_string(out, &woken.by.word());
        out.push_str(", ");
        push_optional(out, &woken.place);
        out.push_str(", ");
        push_optional(out, &woken.kept_at);
    }
    out.push(']');
}

/// Reads the member of the document.
pub(super) fn read(value: Json) -> Result<TasksSeen, String> {
    let mut next = members(value)?;
    let seen = TasksSeen {
        has_times: next("times") == Json::Bool(true),
        now: number(next("now"))?,
        unknown_since: optional(next("unknown_since"))?,
        places: list(next("places"), place)?,
        tasks: list(next("tasks"), task)?,
    };
    if seen.is_whole() {
        Ok(seen)
    } else {
        Err("an index of nothing".to_string())
    }
}

fn place(value: Json) -> Result<SeenPlace, String> {
    let mut next = members(value)?;
    Ok(SeenPlace {
        what: text_of(next("what"))?,
        location: optional(next("location"))?,
        function: optional_text(next("function"))?,
        is_own: next("own") == Json::Bool(true),
    })
}

fn task(value: Json) -> Result<SeenTask, String> {
    let mut next = members(value)?;
    Ok(SeenTask {
        name: text_of(next("name"))?,
        actor: optional(next("actor"))?,
        is_over: next("over") == Json::Bool(true),
        within: optional(next("within"))?,
        polls: list(next("polls"), poll)?,
    })
}

fn poll(value: Json) -> Result<SeenPoll, String> {
    let Json::List(items) = value else {
        return Err("no list".to_string());
    };
    let has_woken = items.len() > 6;
    let mut items = items.into_iter();
    let mut next = || items.next().unwrap_or(Json::Null);
    Ok(SeenPoll {
        begin: number(next())?,
        end: optional(next())?,
        before: number(next())?,
        after: number(next())?,
        thread: number(next())?,
        places: list(next(), number)?,
        woken: if has_woken { Some(wake(next)?) } else { None },
    })
}

fn wake(mut next: impl FnMut() -> Json) -> Result<SeenWake, String> {
    Ok(SeenWake {
        at: number(next())?,
        stamp: number(next())?,
        by: WokenBy::of_word(&text_of(next())?)?,
        place: optional(next())?,
        kept_at: optional(next())?,
    })
}

#[cfg(test)]
mod tests {
    use super::super::Sidecar;
    use super::*;

    fn poll_between(before: u64, after: u64) -> SeenPoll {
        SeenPoll {
            begin: before * 100,
            end: Some(after * 100),
            before,
            after,
            thread: 1,
            ..SeenPoll::default()
        }
    }

    fn seen() -> TasksSeen {
        let place = |what: &str, is_own| SeenPlace {
            what: what.to_string(),
            location: None,
            function: Some("shop::db::store".to_string()),
            is_own,
        };
        let mut polls: Vec<_> = [(0, 2), (4, 4), (6, 9), (12, 12), (20, 21)]
            .map(|(before, after)| poll_between(before, after))
            .into();
        polls[0].places = vec![1, 0];
        polls[0].woken = Some(SeenWake {
            at: 380,
            stamp: 3,
            by: WokenBy::Thread("feed 1".to_string()),
            place: None,
            kept_at: Some(0),
        });
        polls[4].end = None;
        TasksSeen {
            has_times: true,
            now: 2_300,
            unknown_since: Some(7),
            places: vec![place("Mutex::lock", false), place("recv", true)],
            tasks: vec![SeenTask {
                name: "audit".to_string(),
                actor: Some(1),
                is_over: false,
                within: Some(0),
                polls,
            }],
        }
    }

    #[test]
    fn it_is_read_as_it_is_written_and_by_a_later_version_alone() {
        let mut all = seen();
        for (by, poll) in [
            WokenBy::Task(0),
            WokenBy::End(0),
            WokenBy::Timer,
            WokenBy::Runtime,
        ]
        .into_iter()
        .zip(&mut all.tasks[0].polls[1..])
        {
            poll.woken = Some(SeenWake {
                at: 1,
                stamp: 2,
                by,
                place: Some(1),
                kept_at: None,
            });
        }
        let names = Sidecar {
            tasks_seen: Some(all),
            ..Sidecar::default()
        };
        let json = names.to_json();
        assert!(json.starts_with("{\n  \"version\": 5,\n"), "{json}");
        assert_eq!(Sidecar::read(&json), Ok(names));
    }

    #[test]
    fn an_index_of_nothing_is_refused() {
        let wrong = |text: &str, with: &str| {
            let names = Sidecar {
                tasks_seen: Some(seen()),
                ..Sidecar::default()
            };
            let json = names.to_json();
            assert!(json.contains(text), "{json}");
            Sidecar::read(&json.replace(text, with)).unwrap_err()
        };
        let of_nothing = "its `tasks_seen`: an index of nothing";
        assert_eq!(wrong("[1, 0]", "[2, 0]"), of_nothing);
        assert_eq!(wrong("\"thread feed 1\"", "\"task 1\""), of_nothing);
        assert!(wrong("\"thread feed 1\"", "\"task x\"").contains("wakes no task"));
    }

    #[test]
    fn polls_of_spans_stay_with_the_one_before_and_the_last_two() {
        let kept = |spans: &[(u64, u64)]| {
            let mut seen = seen();
            seen.keep(spans);
            let polls = seen.tasks[0].polls.iter();
            polls.map(|poll| poll.before).collect::<Vec<_>>()
        };
        assert_eq!(kept(&[]), [12, 20]);
        // The poll after which it waited over calls 10 and 11 has stamps up to 9.
        assert_eq!(kept(&[(10, 11)]), [4, 6, 12, 20]);
        assert_eq!(kept(&[(0, 1), (25, 30)]), [0, 12, 20]);
    }

    #[test]
    fn stamps_are_raised_together() {
        let mut raised = seen();
        raised.raise(100);
        let first = &raised.tasks[0].polls[0];
        assert_eq!((first.before, first.after), (100, 102));
        assert_eq!(first.woken.as_ref().unwrap().stamp, 103);
        assert_eq!(raised.unknown_since, Some(107));
    }
}
