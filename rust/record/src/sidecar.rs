//! The names beside a journal, as JSON: what its numbers mean, where its calls were made, and which
//! calls still wait. `docs/use/FORMATS.md` in the repository describes the format.
//!
//! A recorder collects and writes them. All that reads a journal reads them too: replays, the
//! account, the command and the debugger.

mod beside;
mod call_order;
mod ending;
mod json;
mod matching;
mod reading;
mod sources;
mod tasks_seen;
mod window;

pub use beside::read_whole;
pub use beside::test_beside;
pub use call_order::{CallOrder, LeftReplay, RaceFound, RaceStep};
pub use ending::{Ending, Panic, Returned, TestId, Unrecorded, checksum};
#[doc(hidden)]
pub use json::Json;
#[doc(hidden)]
pub use json::read as read_json;
pub use matching::{Maker, Matching};
pub use sources::is_downloaded;
pub use tasks_seen::{SeenPlace, SeenPoll, SeenTask, SeenWake, TasksSeen, WokenBy};
pub use window::{ChannelWindow, WindowNames};

use crate::clock::Moment;
use crate::journal::Run;
use crate::numbered::NumberMap;
use std::fmt::{Display, Write};
use std::panic::Location;

/// The version of the format that is written. A document of version 1 has no such key.
const VERSION: u64 = 3;

/// The version that is written of a journal with the last calls alone. Who reads no later one than
/// 3 would take a lead for calls that were made.
const VERSION_OF_WINDOW: u64 = 4;

/// The version that is written with what was seen of tasks, and the last one that is read.
const VERSION_OF_TASKS: u64 = 5;

/// A location in a source: the file as the compiler was given it, with the line and the column,
/// which count from 1.
#[derive(Clone, Debug, PartialEq, Eq)]
pub struct SourceLocation {
    /// The file.
    pub file: String,
    /// The line.
    pub line: u32,
    /// The column.
    pub column: u32,
}

impl From<&Location<'_>> for SourceLocation {
    fn from(location: &Location<'_>) -> SourceLocation {
        SourceLocation {
            file: location.file().to_string(),
            line: location.line(),
            column: location.column(),
        }
    }
}

/// A call that had begun to wait and had not ended. Actor, channel and handle are those of the
/// journal.
#[derive(Clone, Debug, Default, PartialEq, Eq)]
pub struct WaitingCall {
    pub actor: u64,
    pub channel: u64,
    pub handle: u64,
    /// The name of the method, such as `recv`.
    pub call: String,
    /// The entries with stamps up to this were recorded before it began to wait. Of a saved run, it
    /// is the last such stamp, or 0.
    pub since: u64,
    /// An index into the locations.
    pub location: Option<usize>,
    /// If it waits for the lock of a watch's value, who holds that.
    pub held_by: Option<HeldBy>,
    /// Whether it was woken and had not gone on since, as the proved list of who waits said. Names
    /// of older versions don't say it, and neither is it known of one that waits for a lock, stands
    /// before a gate, or was dropped.
    pub woken: Option<bool>,
    /// Of a call that was dropped while it waited: as `since`, when that was.
    pub until: Option<u64>,
    /// How long it waited, in microseconds, if that is known.
    pub waited: Option<u64>,
}

impl WaitingCall {
    /// Whether this is the same call as another, which may have been seen at another time.
    pub fn is_same(&self, other: &WaitingCall) -> bool {
        let of = |it: &WaitingCall| (it.channel, it.handle, it.actor, it.since, it.location);
        of(self) == of(other) && self.call == other.call
    }
}

/// The look that holds the lock of a watch's value, as far as it is known.
#[derive(Clone, Copy, Debug, PartialEq, Eq)]
pub struct HeldBy {
    pub actor: Option<u64>,
    /// An index into the locations.
    pub location: Option<usize>,
}

/// What is known of a run beside its journal. Keys are the journal's numbers, and where a location
/// is meant, values are indexes into `locations`.
#[derive(Clone, Debug, Default, PartialEq, Eq)]
pub struct Sidecar {
    pub actors: NumberMap<u64, String>,
    pub channels: NumberMap<u64, String>,
    /// The texts of values, by channel.
    pub values: NumberMap<u64, NumberMap<u64, String>>,
    /// The names of senders and receivers, by channel.
    pub handles: NumberMap<u64, NumberMap<u64, String>>,
    pub locations: Vec<SourceLocation>,
    /// Where each sender and receiver was created, by channel.
    pub made: NumberMap<u64, NumberMap<u64, usize>>,
    /// Where each call of a channel was made, in the order of its entries.
    pub calls: NumberMap<u64, Vec<Option<usize>>>,
    /// The calls of a channel, by how many of its entries are before each, whose actor in the
    /// journal stands for several: each with the number of its own, which no journal has.
    pub callers: NumberMap<u64, NumberMap<u64, usize>>,
    /// Where each actor that is a task without a name made its first call.
    pub tasks: NumberMap<u64, usize>,
    pub waiting: Vec<WaitingCall>,
    /// The calls that waited when the test failed, and ended after that: its unwinding closed their
    /// channels, or dropped them.
    pub waited_at_failure: Vec<WaitingCall>,
    /// The last calls of each channel that were dropped while they waited.
    pub dropped_waits: Vec<WaitingCall>,
    pub matching: Matching,
    pub ending: Ending,
    pub order: CallOrder,
    /// Of a journal that has the last calls of its channels alone.
    pub window: Option<WindowNames>,
    /// Where the last sender of each channel was dropped, by 0, and its last receiver, by 1.
    pub dropped_at: NumberMap<u64, NumberMap<u64, usize>>,
    /// In which functions.
    pub dropped_in: NumberMap<u64, NumberMap<u64, String>>,
    /// When calls were made, by their stamps.
    pub times: Vec<Moment>,
    /// What was seen of the tasks of a test.
    pub tasks_seen: Option<TasksSeen>,
    /// The account of the run as JSON, for readers that don't find it themselves. It is written and
    /// never read.
    pub account: Option<String>,
}

impl Sidecar {
    /// Returns the index of a location, which is added if it isn't there.
    pub fn index_of(&mut self, location: &SourceLocation) -> usize {
        let known = self.locations.iter().position(|other| other == location);
        known.unwrap_or_else(|| {
            self.locations.push(location.clone());
            self.locations.len() - 1
        })
    }

    /// Makes these the names of this run, whose journal text this is: calls that were recorded
    /// after it are left out, and each wait and each end is since a stamp that the run has, or 0.
    pub fn fit_to(&mut self, run: &Run, journal: &str) {
        let entries = run.entries_by_channel();
        self.calls.retain(|channel, calls| {
            calls.truncate(entries.get(*channel as usize).copied().unwrap_or(0));
            !calls.is_empty()
        });
        self.callers.retain(|channel, callers| {
            let entries = entries.get(*channel as usize).copied().unwrap_or(0);
            callers.retain(|before, _| *before < entries as u64);
            !callers.is_empty()
        });
        fit_waits(&mut self.waiting, run);
        fit_waits(&mut self.waited_at_failure, run);
        fit_waits(&mut self.dropped_waits, run);
        let panics = self.ending.panics.iter_mut().map(|panic| &mut panic.since);
        let returned = self.ending.returned.iter_mut().map(|it| &mut it.since);
        let left = self.order.replay.iter_mut().flat_map(|it| &mut it.since);
        for since in panics.chain(returned).chain(left) {
            *since = run.last_stamp(*since);
        }
        self.ending.journal = Some(checksum(journal.as_bytes()));
    }

    /// Leaves out what was seen of tasks and isn't between these stamps, but for the last poll of
    /// each.
    pub fn keep_tasks_told(&mut self, spans: &[(u64, u64)]) {
        if let Some(seen) = &mut self.tasks_seen {
            seen.keep(spans);
        }
    }

    /// Returns the document. What is empty is left out, unless version 1 had it.
    pub fn to_json(&self) -> String {
        let mut out = String::new();
        self.push_json(&mut out);
        out
    }

    /// Appends the document.
    pub fn push_json(&self, out: &mut String) {
        let version = match (&self.tasks_seen, &self.window) {
            (Some(_), _) => VERSION_OF_TASKS,
            (None, Some(_)) => VERSION_OF_WINDOW,
            (None, None) => VERSION,
        };
        let _ = write!(out, "{{\n  \"version\": {version}");
        push_key(out, "actors");
        push_texts(out, &self.actors);
        push_key(out, "channels");
        push_texts(out, &self.channels);
        push_key(out, "values");
        push_object(out, &self.values, push_texts);
        self.push_handles(out);
        self.push_calls(out);
        self.matching.push(out);
        self.push_drops(out);
        self.ending.push(out);
        self.order.push(out);
        window::push(out, self.window.as_ref(), &self.times);
        if let Some(seen) = &self.tasks_seen {
            tasks_seen::push(out, seen);
        }
        if let Some(account) = &self.account {
            push_key(out, "account");
            push_nested(out, account);
        }
        out.push_str("\n}\n");
    }

    fn push_handles(&self, out: &mut String) {
        push_map(out, "handles", &self.handles, push_texts);
        push_items(out, "locations", &self.locations, push_location);
        push_map(out, "made", &self.made, push_indexes);
    }

    fn push_drops(&self, out: &mut String) {
        push_map(out, "dropped_at", &self.dropped_at, push_indexes);
        push_map(out, "dropped_in", &self.dropped_in, push_texts);
    }

    fn push_calls(&self, out: &mut String) {
        push_map(out, "calls", &self.calls, |out, calls| {
            push_list(out, calls, push_optional)
        });
        push_map(out, "callers", &self.callers, push_indexes);
        push_map(out, "tasks", &self.tasks, push_number);
        for (key, waits) in &[
            ("waiting", &self.waiting),
            ("waited_at_failure", &self.waited_at_failure),
            ("dropped_waits", &self.dropped_waits),
        ] {
            push_items(out, key, waits, push_waiting);
        }
    }
}

/// Gives waits stamps that the run has.
fn fit_waits(waits: &mut [WaitingCall], run: &Run) {
    for wait in waits {
        wait.since = run.last_stamp(wait.since);
        wait.until = wait.until.map(|until| run.last_stamp(until));
    }
}

/// How an item is appended.
type Push<V> = fn(&mut String, &V);

/// Begins a member of the document, on a line of its own.
fn push_key(out: &mut String, key: &str) {
    let _ = write!(out, ",\n  \"{key}\": ");
}

/// Appends a member, if there is something.
fn push_some<V>(out: &mut String, key: &str, item: Option<&V>, push: Push<V>) {
    if let Some(item) = item {
        push_key(out, key);
        push(out, item);
    }
}

/// Appends a member that is a list, unless it is empty.
fn push_items<V>(out: &mut String, key: &str, items: &[V], push: Push<V>) {
    if !items.is_empty() {
        push_key(out, key);
        push_list(out, items, push);
    }
}

/// Appends a member that is an object, unless it is empty.
fn push_map<V>(out: &mut String, key: &str, items: &NumberMap<u64, V>, push: Push<V>) {
    if !items.is_empty() {
        push_key(out, key);
        push_object(out, items, push);
    }
}

/// Appends a member that is `true`, if it is so.
fn push_flag(out: &mut String, key: &str, is_so: bool) {
    if is_so {
        push_key(out, key);
        out.push_str("true");
    }
}

/// Appends a document of several lines, which are moved to the right.
fn push_nested(out: &mut String, document: &str) {
    for (index, line) in document.lines().enumerate() {
        out.push_str(if index > 0 { "\n  " } else { "" });
        out.push_str(line);
    }
}

/// Appends a text as a JSON string.
pub fn push_string(out: &mut String, text: &(impl AsRef<str> + ?Sized)) {
    out.push('"');
    for c in text.as_ref().chars() {
        match c {
            '"' => out.push_str("\\\""),
            '\\' => out.push_str("\\\\"),
            '\n' => out.push_str("\\n"),
            '\r' => out.push_str("\\r"),
            '\t' => out.push_str("\\t"),
            // Some readers end a line at these two, so they are escaped as well.
            c if c < ' ' || c == '\u{2028}' || c == '\u{2029}' => {
                let _ = write!(out, "\\u{:04x}", c as u32);
            }
            c => out.push(c),
        }
    }
    out.push('"');
}

fn push_number(out: &mut String, number: &impl Display) {
    let _ = write!(out, "{number}");
}

fn push_optional(out: &mut String, number: &Option<impl Display>) {
    match number {
        Some(number) => push_number(out, number),
        None => out.push_str("null"),
    }
}

fn push_location(out: &mut String, location: &SourceLocation) {
    out.push('[');
    push_string(out, &location.file);
    let _ = write!(out, ", {}, {}]", location.line, location.column);
}

fn push_waiting(out: &mut String, wait: &WaitingCall) {
    let (actor, channel, handle) = (wait.actor, wait.channel, wait.handle);
    let _ = write!(
        out,
        "{{\"actor\": {actor}, \"channel\": {channel}, \"handle\": {handle}, \"call\": "
    );
    push_string(out, &wait.call);
    let _ = write!(out, ", \"since\": {}, \"location\": ", wait.since);
    push_optional(out, &wait.location);
    if let Some(HeldBy { actor, location }) = &wait.held_by {
        out.push_str(", \"held_by\": {\"actor\": ");
        push_optional(out, actor);
        out.push_str(", \"location\": ");
        push_optional(out, location);
        out.push('}');
    }
    if let Some(woken) = wait.woken {
        let _ = write!(out, ", \"woken\": {woken}");
    }
    for (key, number) in &[("until", wait.until), ("waited", wait.waited)] {
        if let Some(number) = number {
            let _ = write!(out, ", \"{key}\": {number}");
        }
    }
    out.push('}');
}

fn push_indexes(out: &mut String, indexes: &NumberMap<u64, usize>) {
    push_object(out, indexes, push_number);
}

type TextsByNumber = NumberMap<u64, String>;

fn push_texts(out: &mut String, texts: &TextsByNumber) {
    push_object(out, texts, push_string);
}

/// Appends a JSON object whose keys are numbers.
fn push_object<V>(out: &mut String, items: &NumberMap<u64, V>, push: Push<V>) {
    out.push('{');
    for (index, (number, item)) in items.iter().enumerate() {
        let comma = if index > 0 { ", " } else { "" };
        let _ = write!(out, "{comma}\"{number}\": ");
        push(out, item);
    }
    out.push('}');
}

/// Appends a JSON array.
fn push_list<V>(out: &mut String, items: &[V], push: Push<V>) {
    out.push('[');
    for (index, item) in items.iter().enumerate() {
        out.push_str(if index > 0 { ", " } else { "" });
        push(out, item);
    }
    out.push(']');
}

#[cfg(test)]
mod tests {
    use super::*;

    /// Asserts that these names are read as they are written, and returns what is written.
    pub(super) fn written_and_read(names: Sidecar) -> String {
        let json = names.to_json();
        assert_eq!(Sidecar::read(&json), Ok(names));
        json
    }

    fn at(file: &str, line: u32, column: u32) -> SourceLocation {
        SourceLocation {
            file: file.into(),
            line,
            column,
        }
    }

    #[test]
    fn strings_are_escaped() {
        let names = Sidecar {
            actors: [(7, "a \"b\" \\ \n\u{1}\u{2028}é".into())].into(),
            ..Sidecar::default()
        };
        let json = names.to_json();
        let wanted = r#"{"7": "a \"b\" \\ \n\u0001\u2028é"}"#;
        assert!(json.contains(wanted), "{json}");
    }

    #[test]
    fn what_is_empty_and_new_is_left_out() {
        assert_eq!(
            Sidecar::default().to_json(),
            "{\n  \"version\": 3,\n  \"actors\": {},\n  \"channels\": {},\n  \"values\": {}\n}\n"
        );
    }

    const WAIT: WaitingCall = WaitingCall {
        actor: 0,
        channel: 0,
        handle: 1,
        call: String::new(),
        since: 2,
        location: None,
        held_by: None,
        woken: None,
        until: None,
        waited: None,
    };

    #[test]
    fn names_fit_their_journal() {
        let waiting = [0, 2, 6, 9].map(|since| WaitingCall {
            handle: 1,
            call: "recv".into(),
            since,
            ..WaitingCall::default()
        });
        let mut names = Sidecar {
            calls: [
                (0, vec![Some(0), None, Some(1)]),
                (1, vec![Some(1)]),
                (2, vec![None]),
            ]
            .into(),
            waiting: waiting.into(),
            dropped_waits: vec![WaitingCall {
                until: Some(6),
                ..WAIT
            }],
            ..Sidecar::default()
        };
        let journal = "ttd-journal 2\nbroadcast 2\nwatch 0\nwatch 0\nsteps\n\
            2 0 0 send 0 0 = sent 1\n5 1 0 try-recv 1 = value 0\n7 0 2 borrow 0 = value 0\nend\n";
        names.fit_to(&Run::read(journal.as_bytes()).unwrap(), journal);
        let calls = [(0, vec![Some(0), None]), (2, vec![None])];
        assert_eq!(names.calls, calls.into());
        let since: Vec<u64> = names.waiting.iter().map(|wait| wait.since).collect();
        assert_eq!(since, [0, 2, 5, 7]);
        let dropped = &names.dropped_waits[0];
        assert_eq!((dropped.since, dropped.until), (2, Some(5)));
    }

    #[test]
    fn each_key_is_on_a_line_of_its_own() {
        let names = Sidecar {
            actors: [(0, "ticker".into()), (3, "task 17".into())].into(),
            channels: [(0, "prices".into())].into(),
            values: [(0, [(0, "101 EUR".into()), (1, "102 EUR".into())].into())].into(),
            handles: [(0, [(1, "auditor".into())].into())].into(),
            locations: vec![at("tests/bus.rs", 15, 9), at("src/\"a\".rs", 30, 1)],
            made: [(0, [(0, 0), (1, 0), (2, 1)].into()), (1, [(0, 1)].into())].into(),
            calls: [(0, vec![Some(1), None, Some(0)])].into(),
            tasks: [(3, 1)].into(),
            waiting: vec![
                WaitingCall {
                    actor: 3,
                    handle: 1,
                    call: "recv".into(),
                    since: 12,
                    location: Some(1),
                    woken: Some(true),
                    ..WaitingCall::default()
                },
                WaitingCall {
                    channel: 1,
                    handle: 0,
                    call: "send".into(),
                    since: 0,
                    held_by: Some(HeldBy {
                        actor: Some(3),
                        location: None,
                    }),
                    ..WaitingCall::default()
                },
            ],
            dropped_waits: vec![WaitingCall {
                until: Some(4),
                waited: Some(30_012),
                ..WAIT
            }],
            dropped_at: [(0, [(0, 1)].into())].into(),
            dropped_in: [(0, [(0, "shop::publish".into())].into())].into(),
            ..Sidecar::default()
        };
        let wanted = r#"{
  "version": 3,
  "actors": {"0": "ticker", "3": "task 17"},
  "channels": {"0": "prices"},
  "values": {"0": {"0": "101 EUR", "1": "102 EUR"}},
  "handles": {"0": {"1": "auditor"}},
  "locations": [["tests/bus.rs", 15, 9], ["src/\"a\".rs", 30, 1]],
  "made": {"0": {"0": 0, "1": 0, "2": 1}, "1": {"0": 1}},
  "calls": {"0": [1, null, 0]},
  "tasks": {"3": 1},
  "waiting": [{"actor": 3, "channel": 0, "handle": 1, "call": "recv", "since": 12, "location": 1, "woken": true}, {"actor": 0, "channel": 1, "handle": 0, "call": "send", "since": 0, "location": null, "held_by": {"actor": 3, "location": null}}],
  "dropped_waits": [{"actor": 0, "channel": 0, "handle": 1, "call": "", "since": 2, "location": null, "until": 4, "waited": 30012}],
  "dropped_at": {"0": {"0": 1}},
  "dropped_in": {"0": {"0": "shop::publish"}}
}
"#;
        assert_eq!(names.to_json(), wanted);
    }
}
