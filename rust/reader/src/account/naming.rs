//! What the text calls the things of a run: by their names, and where they have none by their
//! places or numbers.

use super::history::History;
use yovanelum_record::journal::{ChannelValue, RunEntry};
use yovanelum_record::operation::Operation;
use yovanelum_record::reply::Reply;
use yovanelum_record::sidecar::{Sidecar, SourceLocation};
use yovanelum_record::unnamed::UnnamedChannel;
use yovanelum_record::visible;

/// The names of a run.
pub(super) struct Naming<'a> {
    names: &'a Sidecar,
    history: &'a History,
}

/// What a receiver is called.
pub(super) struct Called {
    /// As `auditor`, or `receiver 2`.
    pub(super) short: String,
    /// The same where it is first named, as `auditor` between backquotes, or
    /// `receiver 2 (created at tests/bus.rs:9)`.
    pub(super) full: String,
}

impl Called {
    /// By a name, and for a task without one by where it made its first call.
    fn named(short: String, first_call: Option<String>) -> Called {
        let full = match first_call {
            Some(location) => format!("`{short}` ({location})"),
            None => format!("`{short}`"),
        };
        Called { short, full }
    }
}

impl<'a> Naming<'a> {
    pub(super) fn new(names: &'a Sidecar, history: &'a History) -> Naming<'a> {
        Naming { names, history }
    }

    /// Returns the name of an actor. That of an unnamed task is `task 17`.
    pub(super) fn actor(&self, actor: u64) -> String {
        match self.names.actors.get(&actor) {
            Some(name) => match name
                .strip_prefix("ThreadId(")
                .and_then(|it| it.strip_suffix(')'))
            {
                Some(number) => format!("thread {number}"),
                None => visible::name(name),
            },
            None => format!("actor {actor}"),
        }
    }

    /// Returns what a channel is called, as `prices` between backquotes, or by its place.
    pub(super) fn channel(&self, channel: u32) -> String {
        match self.names.channels.get(&channel.into()) {
            Some(name) => format!("`{}`", visible::name(name)),
            None => UnnamedChannel::of(self.names, channel.into()).in_sentence(),
        }
    }

    /// Returns a method of a channel, as `prices.recv`, or `channel of src/bus.rs:12: recv`.
    pub(super) fn method(&self, channel: u32, method: &str) -> String {
        match self.names.channels.get(&channel.into()) {
            Some(name) => format!("{}.{method}", visible::name(name)),
            None => {
                let unnamed = UnnamedChannel::of(self.names, channel.into());
                format!("{}: {method}", unnamed.short())
            }
        }
    }

    /// Returns what a receiver is called: by its own name, else by the actor that reads by it and
    /// does nothing else, else by its number.
    pub(super) fn receiver(&self, channel: u32, receiver: u32) -> Called {
        let own = self.names.handles.get(&channel.into());
        if let Some(name) = own.and_then(|handles| handles.get(&receiver.into())) {
            return Called::named(visible::name(name), None);
        }
        let reader = self.history.reader(channel, receiver);
        if let Some(actor) = reader
            .map(u64::from)
            .filter(|actor| self.names.actors.contains_key(actor))
        {
            let first_call = self
                .names
                .tasks
                .get(&actor)
                .and_then(|it| self.location(*it));
            return Called::named(self.actor(actor), first_call);
        }
        let number = self.names.handle_number(channel, receiver.into());
        let short = format!("receiver {number}");
        let full = match self.created_at(channel, receiver) {
            Some(location) => format!("{short} (created at {location})"),
            None => short.clone(),
        };
        Called { short, full }
    }

    /// Returns what a sender or a receiver is called, with the place where it was created.
    pub(super) fn handle(&self, channel: u32, handle: u32) -> String {
        if self.history.channel(channel).is_receiver(handle) {
            return self.receiver(channel, handle).full;
        }
        let own = self.names.handles.get(&channel.into());
        let name = match own.and_then(|handles| handles.get(&handle.into())) {
            Some(name) => format!("`{}`", visible::name(name)),
            None => format!(
                "sender {}",
                self.names.handle_number(channel, handle.into())
            ),
        };
        match self.created_at(channel, handle) {
            Some(location) => format!("{name} of {location}"),
            None => name,
        }
    }

    fn created_at(&self, channel: u32, handle: u32) -> Option<String> {
        self.made(channel, handle).map(visible::line_of)
    }

    /// Returns where a sender or a receiver was created.
    pub(super) fn made(&self, channel: u32, handle: u32) -> Option<&SourceLocation> {
        let made = self.names.made.get(&channel.into())?;
        self.source(*made.get(&handle.into())?)
    }

    /// Returns a value: its text in quotation marks, or `value 2`.
    pub(super) fn value(&self, channel: u32, value: u64) -> String {
        match self.text_of(channel, value) {
            Some(text) => text,
            // The crate numbers the values of each channel from 0. Other journals have their own.
            None if self.names.ending.journal.is_some() => {
                format!("its {} value", visible::nth(value.saturating_add(1)))
            }
            None => format!("value {value}"),
        }
    }

    fn text_of(&self, channel: u32, value: u64) -> Option<String> {
        let texts = self.names.values.get(&channel.into())?;
        texts.get(&value).map(|text| visible::quoted(text))
    }

    /// Returns these values, on one line.
    pub(super) fn values(&self, channel: u32, values: &[ChannelValue<u64>]) -> String {
        visible::list(values, |value| self.value(channel, value.value))
    }

    /// Returns the value that a call returned, or nothing.
    pub(super) fn returned(&self, entry: &RunEntry) -> String {
        match entry.reply {
            Reply::Value(value) => self.value(entry.channel, value),
            _ => String::new(),
        }
    }

    /// Returns what a call returned, in words: `lagged 2`, or a value.
    pub(super) fn reply(&self, entry: &RunEntry) -> String {
        match entry.reply {
            Reply::Value(value) | Reply::Old(value) => self.value(entry.channel, value),
            Reply::Lagged(count) => format!("Lagged({count})"),
            Reply::Empty => "Empty".to_string(),
            Reply::Closed => "Closed".to_string(),
            Reply::NoReceivers(_) => "no receivers".to_string(),
            Reply::Flag(flag) => (flag != 0).to_string(),
            reply => match reply.number() {
                Some(number) => number.to_string(),
                None => "done".to_string(),
            },
        }
    }

    /// Returns the word of the call that led to this place. Two calls that wait have the word of
    /// others in a journal.
    pub(super) fn word(&self, place: u64, entry: &RunEntry) -> Operation {
        let index = self.history.index_on_channel(place) as u32;
        if self.names.matching.is_waited(entry.channel, index) {
            entry.word.marked()
        } else {
            entry.word
        }
    }

    /// Returns the call that led to this place, as `prices.send("103 EUR")`.
    pub(super) fn call(&self, place: u64, entry: &RunEntry) -> String {
        let value = entry.value.map(|value| self.value(entry.channel, value));
        let method = self.word(place, entry).method();
        let call = format!("{method}({})", value.unwrap_or_default());
        self.method(entry.channel, &call)
    }

    /// Returns where the call was made that led to this place.
    pub(super) fn call_source(&self, channel: u32, place: u64) -> Option<&SourceLocation> {
        let calls = self.names.calls.get(&channel.into())?;
        let call = calls.get(self.history.index_on_channel(place))?;
        self.source((*call)?)
    }

    /// Returns a location by its index.
    pub(super) fn source(&self, index: usize) -> Option<&SourceLocation> {
        self.names.locations.get(index)
    }

    /// Returns a location as a file and a line.
    fn location(&self, index: usize) -> Option<String> {
        self.source(index).map(visible::line_of)
    }
}
