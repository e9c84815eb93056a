//! The words of the account for any place of a run: what a debugger shows is called as in the
//! report.

use super::Account;
use super::history::History;
use super::naming::Naming;
use yovanelum_record::journal::{Run, RunEntry, TextFault};
use yovanelum_record::reply::Reply;
use yovanelum_record::sidecar::{Sidecar, SourceLocation};
use yovanelum_record::unnamed::UnnamedChannel;
use yovanelum_record::visible;

/// What a run's things are called. It doesn't keep the run itself, which a debugger has.
pub struct Saying {
    names: Sidecar,
    history: History,
}

impl Saying {
    /// Takes a run with its names. Returns also the account of the run.
    ///
    /// # Errors
    ///
    /// Returns `NoMemory` if there is none for what is found.
    pub fn of(run: &Run, names: Sidecar) -> Result<(Saying, Account), TextFault> {
        let findings = run.findings()?;
        let history = History::of(run, &names);
        let account = Account::with(run, &names, &findings, &history)?;
        Ok((Saying { names, history }, account))
    }

    pub fn names(&self) -> &Sidecar {
        &self.names
    }

    fn naming(&self) -> Naming<'_> {
        Naming::new(&self.names, &self.history)
    }

    pub fn actor(&self, actor: u64) -> String {
        self.naming().actor(actor)
    }

    /// Returns the name of a channel, or what it is called by its place.
    pub fn channel(&self, channel: u32) -> String {
        match self.names.channels.get(&channel.into()) {
            Some(name) => visible::name(name),
            None => UnnamedChannel::of(&self.names, channel.into()).short(),
        }
    }

    /// Returns what a handle is called: a receiver as in the report, and a sender by its name or
    /// number.
    pub fn handle(&self, channel: u32, handle: u32, is_receiver: bool) -> String {
        if is_receiver {
            return self.naming().receiver(channel, handle).short;
        }
        let named = self.names.handles.get(&channel.into());
        match named.and_then(|handles| handles.get(&handle.into())) {
            Some(name) => visible::name(name),
            None => format!(
                "sender {}",
                self.names.handle_number(channel, handle.into())
            ),
        }
    }

    pub fn value(&self, channel: u32, value: u64) -> String {
        self.naming().value(channel, value)
    }

    /// Returns the whole text of a value, if it has one.
    pub fn text(&self, channel: u32, value: u64) -> Option<&str> {
        let texts = self.names.values.get(&channel.into())?;
        texts.get(&value).map(String::as_str)
    }

    /// Returns tokio's name of the method that was called, or `drop`.
    pub fn method(&self, place: u64, entry: &RunEntry) -> &'static str {
        self.naming().word(place, entry).method()
    }

    /// Returns the call that led to a place, as `prices.send("103 EUR")`.
    pub fn call(&self, place: u64, entry: &RunEntry) -> String {
        self.naming().call(place, entry)
    }

    /// Returns what a call returned, as `lagged 3` or `value "103 EUR"`. The word is the journal's.
    pub fn reply(&self, entry: &RunEntry, word: &str) -> String {
        match entry.reply {
            Reply::Value(value) | Reply::Old(value) | Reply::NoReceivers(value) => {
                format!("{word} {}", self.value(entry.channel, value))
            }
            Reply::New(handle) => {
                format!("{word} {}", self.names.handle_number(entry.channel, handle))
            }
            Reply::Told(flag) | Reply::Flag(flag) => format!("{word} {}", flag != 0),
            reply => match reply.number() {
                Some(number) => format!("{word} {number}"),
                None => word.to_string(),
            },
        }
    }

    /// Returns where the call of a channel was made that led to a place, as an index into the
    /// locations.
    pub fn location(&self, channel: u32, place: u64) -> Option<usize> {
        let calls = self.names.calls.get(&channel.into())?;
        *calls.get(self.history.index_on_channel(place))?
    }

    pub fn locations(&self) -> &[SourceLocation] {
        &self.names.locations
    }
}
