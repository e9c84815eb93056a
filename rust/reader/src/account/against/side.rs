//! One of two runs that are compared: its calls, each with what of it is the same in another run.

use super::super::history::History;
use super::super::naming::Naming;
use super::Both;
use yovanelum_record::by_text::TextMap;
use yovanelum_record::journal::{Run, RunEntry, Spec};
use yovanelum_record::listed::IntoList;
use yovanelum_record::numbered::NumberMap;
use yovanelum_record::operation::{CallSet, Kind, Operation};
use yovanelum_record::reply::Reply;
use yovanelum_record::sidecar::Sidecar;

/// The things of both runs, by a text that is the same in both.
#[derive(Default)]
pub(super) struct Keys(TextMap<u32>);

impl Keys {
    fn of(&mut self, text: String) -> u32 {
        let next = self.0.len() as u32;
        *self.0.get_or_insert_with(&text, || next)
    }
}

/// A call. Channels, handles and callers are the keys of both runs.
pub(super) struct SideCall {
    pub(super) entry: RunEntry,
    /// The word, by which calls that wait are told from others.
    pub(super) word: Operation,
    pub(super) channel: u32,
    pub(super) handle: u32,
    caller: u32,
    /// How many calls of its caller are before it.
    nth: usize,
    /// How many sends come before it on its channel, if that says anything of it.
    pub(super) sends: Option<usize>,
    pub(super) is_closed: bool,
}

#[derive(Clone, Copy, PartialEq, Eq)]
enum HandleKind {
    Sender,
    WeakSender,
    Receiver,
    Never,
}

#[derive(Clone, Copy)]
struct SideHandle {
    kind: HandleKind,
    key: u32,
}

/// A channel, as far as its calls were read.
pub(super) struct SideChannel {
    key: u32,
    /// The places of its sends.
    pub(super) sends: Vec<u64>,
    /// The place at which its last sender was dropped, or 0.
    pub(super) closed_at: u64,
    senders: u32,
    handles: Vec<SideHandle>,
    // By caller, how many handles it has made.
    made: NumberMap<u32, u32>,
}

/// A run. Of one that begins in a window, the lead is none of its calls.
pub(super) struct Side<'a> {
    names: &'a Sidecar,
    history: History,
    calls: Vec<SideCall>,
    pub(super) channels: Vec<SideChannel>,
    // By caller, the places of its calls.
    places: NumberMap<u32, Vec<u64>>,
    // By actor, the caller that it is.
    callers: NumberMap<u32, u32>,
    // How many actors that are called the same have made a call.
    labels: TextMap<u32>,
    both: Both,
}

impl<'a> Side<'a> {
    pub(super) fn of((run, names): (&Run, &'a Sidecar), both: Both, keys: &mut Keys) -> Side<'a> {
        let specs = (0..).zip(run.specs());
        let mut side = Side {
            names,
            history: History::of(run, names),
            calls: Vec::with_capacity(run.len() as usize),
            channels: specs
                .map(|(number, spec)| SideChannel::of((names, number), spec, both, keys))
                .listed(),
            places: NumberMap::new(),
            callers: NumberMap::new(),
            labels: TextMap::new(),
            both,
        };
        for (place, entry) in run.entries() {
            if place <= names.lead() {
                side.pass(place, &entry, keys);
            } else {
                side.add(place, entry, keys);
            }
        }
        side
    }

    pub(super) fn len(&self) -> u64 {
        self.calls.len() as u64
    }

    /// The calls with their places.
    pub(super) fn calls(&self) -> impl Iterator<Item = (u64, &SideCall)> {
        (self.names.lead() + 1..).zip(&self.calls)
    }

    /// Returns for each channel the one of another side that is the same, if there is one.
    pub(super) fn channels_in(&self, other: &Side<'_>) -> impl Iterator<Item = Option<u32>> {
        let keys = self.channels.iter().map(|channel| channel.key);
        keys.map(|key| {
            let found = other.channels.iter().position(|it| it.key == key);
            found.map(|channel| channel as u32)
        })
    }

    pub(super) fn naming(&self) -> Naming<'_> {
        Naming::new(self.names, &self.history)
    }

    pub(super) fn has_failed(&self) -> bool {
        self.names.matching.has_failed
    }

    pub(super) fn has_name(&self, actor: u32) -> bool {
        self.names.actors.contains_key(&actor.into())
    }

    /// Returns the call that led to a place.
    pub(super) fn call(&self, place: u64) -> &SideCall {
        &self.calls[self.index(place)]
    }

    /// Returns which of the calls led to a place.
    pub(super) fn index(&self, place: u64) -> usize {
        (place - self.names.lead()) as usize - 1
    }

    /// Returns whether a place is that of a call.
    pub(super) fn has_call(&self, place: u64) -> bool {
        place > self.names.lead()
    }

    /// Returns the place of the call by the same caller with the same number.
    pub(super) fn partner_of(&self, call: &SideCall) -> Option<u64> {
        self.places.get(&call.caller)?.get(call.nth).copied()
    }

    /// Passes over an entry of the lead, which nobody has called: it creates and drops handles.
    fn pass(&mut self, place: u64, entry: &RunEntry, keys: &mut Keys) {
        let channel = &mut self.channels[entry.channel as usize];
        let kind = channel.handle(entry.handle, keys).kind;
        if let Reply::New(_) = entry.reply {
            let number = channel.handles.len() as u64;
            let text = handle_text(self.names, entry.channel, number);
            channel.add(entry.word, text, keys);
        }
        channel.note_drop(place, entry, kind);
    }

    /// Adds a call with what came before it on its channel. What it does itself counts for those
    /// after it.
    fn add(&mut self, place: u64, entry: RunEntry, keys: &mut Keys) {
        let caller = self.caller_of(place, &entry, keys);
        let word = self.naming().word(place, &entry);
        let places = self.places.get_or_default(caller);
        places.push(place);
        let nth = places.len() - 1;
        let channel = &mut self.channels[entry.channel as usize];
        let handle = channel.handle(entry.handle, keys);
        let is_receiver = handle.kind == HandleKind::Receiver;
        let counts =
            entry.word.is(CallSet::SENDS) || entry.word == Operation::Subscribe || is_receiver;
        self.calls.push(SideCall {
            word,
            channel: channel.key,
            handle: handle.key,
            caller,
            nth,
            sends: counts.then_some(channel.sends.len()),
            is_closed: channel.closed_at > 0,
            entry,
        });
        channel.note(place, &entry, handle.kind, caller, keys);
    }

    fn caller_of(&mut self, place: u64, entry: &RunEntry, keys: &mut Keys) -> u32 {
        if let Some(caller) = self.callers.get(&entry.actor) {
            return *caller;
        }
        let label = self.label_of(place, entry);
        let before = self.labels.get_or_default(&label);
        let caller = keys.of(format!("caller {before} {label}"));
        *before += 1;
        self.callers.insert(entry.actor, caller);
        caller
    }

    /// Returns what an actor is called that makes its first call at a place.
    fn label_of(&self, place: u64, entry: &RunEntry) -> String {
        let actor = u64::from(entry.actor);
        if !self.both.is_named {
            return format!("number {actor}");
        }
        let has_own = !self.names.matching.unnamed.contains(&actor);
        if let Some(name) = self.names.actors.get(&actor).filter(|_| has_own) {
            return format!("name {name}");
        }
        let naming = self.naming();
        let task = self.names.tasks.get(&actor);
        let source = task.and_then(|index| naming.source(*index));
        match source.or_else(|| naming.call_source(entry.channel, place)) {
            Some(at) => format!("source {}:{}:{}", at.file, at.line, at.column),
            None => "source".to_string(),
        }
    }

    /// Returns the value that a call sends, as both runs have it.
    pub(super) fn sent_key(&self, call: &SideCall) -> Option<ValueKey<'_>> {
        call.entry
            .value
            .map(|value| self.value_key(call.entry.channel, value))
    }

    /// Returns what a call returned, as both runs have it: a value as in both, and of a new handle
    /// not its number.
    pub(super) fn reply_key(&self, call: &SideCall) -> (Reply, Option<ValueKey<'_>>) {
        let key = |value| Some(self.value_key(call.entry.channel, value));
        match call.entry.reply {
            Reply::New(_) => (Reply::New(0), None),
            Reply::Value(value) => (Reply::Value(0), key(value)),
            Reply::Old(value) => (Reply::Old(0), key(value)),
            Reply::NoReceivers(value) => (Reply::NoReceivers(0), key(value)),
            reply => (reply, None),
        }
    }

    fn value_key(&self, channel: u32, value: u64) -> ValueKey<'_> {
        let texts = self.names.values.get(&channel.into());
        match texts.and_then(|texts| texts.get(&value)) {
            Some(text) => ValueKey::Text(text),
            None => ValueKey::Number(value),
        }
    }
}

/// A value: its text, or else its number.
#[derive(PartialEq, Eq)]
pub(super) enum ValueKey<'a> {
    Text(&'a str),
    Number(u64),
}

/// Returns what a channel is to both runs: its kind, and who made it as the how manieth, or its
/// number.
fn channel_text(names: &Sidecar, spec: &Spec<u64>, number: u64, both: Both) -> String {
    let kind = match spec {
        Spec::Broadcast(_) => "broadcast",
        Spec::Watch(_) => "watch",
    };
    let maker = names.matching.made_by.get(&number);
    match maker.filter(|_| both.has_makers) {
        Some(maker) => format!("{kind} {:?} {}", maker.name, maker.nth),
        None => format!("{kind} {number}"),
    }
}

/// Returns what a handle is to both runs that was there before the window, or before all calls: by
/// its real number.
fn handle_text(names: &Sidecar, channel: u32, number: u64) -> String {
    format!("handle {}", names.handle_number(channel, number))
}

impl SideChannel {
    fn of(
        (names, number): (&Sidecar, u32),
        spec: &Spec<u64>,
        both: Both,
        keys: &mut Keys,
    ) -> SideChannel {
        let text = channel_text(names, spec, number.into(), both);
        let first = (0..).zip(&[HandleKind::Sender, HandleKind::Receiver]);
        SideChannel {
            key: keys.of(text),
            sends: vec![],
            closed_at: 0,
            senders: 1,
            handles: first
                .map(|(handle, kind)| SideHandle {
                    kind: *kind,
                    key: keys.of(handle_text(names, number, handle)),
                })
                .listed(),
            made: NumberMap::new(),
        }
    }

    /// Returns a handle, which may never have been made.
    fn handle(&self, number: u32, keys: &mut Keys) -> SideHandle {
        match self.handles.get(number as usize) {
            Some(handle) => *handle,
            None => SideHandle {
                kind: HandleKind::Never,
                key: keys.of(format!("never {number}")),
            },
        }
    }

    fn note(
        &mut self,
        place: u64,
        entry: &RunEntry,
        kind: HandleKind,
        caller: u32,
        keys: &mut Keys,
    ) {
        if entry.word.is(CallSet::SENDS) {
            self.sends.push(place);
        }
        if let Reply::New(_) = entry.reply {
            self.make(entry.word, caller, keys);
        }
        self.note_drop(place, entry, kind);
    }

    fn note_drop(&mut self, place: u64, entry: &RunEntry, kind: HandleKind) {
        if entry.reply != Reply::Dropped || kind != HandleKind::Sender {
            return;
        }
        self.senders -= 1;
        if self.senders == 0 {
            self.closed_at = place;
        }
    }

    fn make(&mut self, word: Operation, caller: u32, keys: &mut Keys) {
        let before = self.made.get_or_default(caller);
        let text = format!("made {before} by {caller}");
        *before += 1;
        self.add(word, text, keys);
    }

    /// Adds the handle that a call of this word creates.
    fn add(&mut self, word: Operation, text: String, keys: &mut Keys) {
        let kind = match word.makes() {
            Some(Kind::Sender) => HandleKind::Sender,
            Some(Kind::WeakSender) => HandleKind::WeakSender,
            Some(Kind::Receiver) | None => HandleKind::Receiver,
        };
        self.senders += u32::from(kind == HandleKind::Sender);
        let key = keys.of(text);
        self.handles.push(SideHandle { kind, key });
    }
}
