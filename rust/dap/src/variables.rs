//! Groups of variables: a call, a channel, its window, its receivers, a receiver.

use crate::arguments::Arguments;
use crate::expression::{Entity, Field, field_of, thing_of};
use crate::moves::Debuggee;
use crate::recording::Recording;
use crate::shown::text_of;
use crate::{Answer, Refusal};
use serde_json::{Value, json};
use yovanelum::debugger::Channel;

/// How many receivers are directly in the scope of their channel. More are a group of their own.
const FEW: usize = 16;

/// How many variables are returned at once.
const MOST: u64 = 65_536;

/// What has a number at a stop. The last number is the place at which it is shown.
#[derive(Clone, Copy)]
pub(crate) enum Group {
    Call(u32),
    Channel(u32, u32),
    Window(u32, u32),
    Receivers(u32, u32),
    Receiver(u32, u32, u32),
    /// The retained values that a receiver has yet to receive.
    Unread(u32, u32, u32),
    /// What a task did, by its index.
    Task(usize, u32),
    Waits,
    Found,
}

/// Which variables of a long list are wanted.
#[derive(Clone, Copy)]
struct Range {
    start: u64,
    count: u64,
}

impl Range {
    fn of<T>(self, items: impl Iterator<Item = T>) -> impl Iterator<Item = (u64, T)> {
        let numbered = (0..).zip(items).skip(self.start as usize);
        numbered.take(self.count as usize)
    }
}

pub(crate) fn variable(name: impl Into<Value>, value: impl Into<String>) -> Value {
    json!({"name": name.into(), "value": value.into(), "variablesReference": 0})
}

impl Debuggee {
    pub(crate) fn variables(&mut self, given: Arguments<'_>) -> Answer {
        let group = self.group_of(given.need_number("variablesReference")?)?;
        let count = given.number("count")?.filter(|count| *count > 0);
        let range = Range {
            start: given.number("start")?.unwrap_or(0),
            count: count.unwrap_or(MOST).min(MOST),
        };
        let variables = match group {
            Group::Call(call) => self.of_call(call),
            Group::Channel(channel, at) => self.of_channel(channel, at),
            Group::Window(channel, at) => self.of_window(channel, at, 0, range),
            Group::Receivers(channel, at) => self.receivers(channel, at, range),
            Group::Receiver(channel, handle, at) => self.of_receiver(channel, handle, at),
            Group::Unread(channel, handle, at) => self.of_unread(channel, handle, at, range),
            Group::Task(task, at) => {
                let Recording { tasks, names, .. } = &self.recording;
                tasks.variables(task, at, self.recording.walk(), names)
            }
            Group::Waits => self.waits(),
            Group::Found => self.found(range),
        };
        Ok(json!({"variables": variables}))
    }

    pub(crate) fn group_of(&self, id: u64) -> Answer<Group> {
        let group = self.groups.get(id);
        group.ok_or_else(|| Refusal::new("there are no such variables at this stop"))
    }

    fn of_call(&mut self, call: u32) -> Vec<Value> {
        let Some(entry) = self.recording.entry(call) else {
            return vec![];
        };
        let names = &self.recording.names;
        let is_receiver = self
            .recording
            .receivers
            .contains(&(entry.channel(), entry.handle()));
        let by = if is_receiver {
            names.receiver(entry.channel(), entry.handle())
        } else {
            names.sender(entry.channel(), entry.handle())
        };
        let mut variables = vec![
            variable("call", names.call(call.into(), &entry)),
            variable("reply", names.reply(&entry)),
            variable("actor", names.actor(entry.actor())),
            variable("by", by),
            variable("number", format!("{call} of {}", self.recording.len())),
        ];
        let value = entry
            .value()
            .or(entry.returned().filter(|_| entry.reply() == "value"));
        let text = value.and_then(|value| names.text(entry.channel(), value));
        variables.extend(text.map(|text| variable("text", text)));
        variables
    }

    fn of_channel(&mut self, channel: u32, at: u32) -> Vec<Value> {
        let shown = self.recording.at(at).channel(channel);
        let Some(count) = shown.map(|shown| shown.receivers().count()) else {
            return vec![];
        };
        let mut variables = if count <= FEW {
            self.receivers(
                channel,
                at,
                Range {
                    start: 0,
                    count: MOST,
                },
            )
        } else {
            vec![self.group(
                variable("receivers", count.to_string()),
                Group::Receivers(channel, at),
                count,
            )]
        };
        variables.extend(self.contents(channel, at));
        variables.extend(self.senders(channel));
        let name = self.recording.names.channel(channel);
        variables.push(self.named_field(&name, Entity::Channel(channel), Field::Closed));
        variables
    }

    /// Returns the senders of a channel, where the walk is at the place. Weak ones are there if
    /// there are any.
    fn senders(&self, channel: u32) -> Vec<Value> {
        let Some(shown) = self.recording.walk().channel(channel) else {
            return vec![];
        };
        let sender = |handle| self.recording.names.sender(channel, handle);
        let senders: Vec<_> = shown.senders().map(sender).collect();
        let weak: Vec<_> = shown.weak_senders().map(sender).collect();
        let none = || "none".to_string();
        let list = |handles: &[String]| match handles {
            [] => none(),
            handles => handles.join(", "),
        };
        let mut variables = vec![variable("senders", list(&senders))];
        if !weak.is_empty() {
            variables.push(variable("weak senders", list(&weak)));
        }
        variables
    }

    /// Returns the values and numbers of a channel, where the walk is at the place.
    fn contents(&mut self, channel: u32, at: u32) -> Vec<Value> {
        let (thing, name) = (
            Entity::Channel(channel),
            self.recording.names.channel(channel),
        );
        match self.recording.walk().channel(channel) {
            Some(Channel::Broadcast(it)) => {
                let count = it.window().count();
                let window = variable("window", counted(count));
                let window = self.group(window, Group::Window(channel, at), count);
                let fields = [Field::Sent, Field::Queued, Field::Capacity];
                let fields = fields.map(|field| self.named_field(&name, thing, field));
                [window].into_iter().chain(fields).collect()
            }
            Some(Channel::Watch(it)) => {
                let value = variable("value", self.recording.names.value(channel, it.value()));
                vec![value, self.named_field(&name, thing, Field::Version)]
            }
            None => vec![],
        }
    }

    /// Makes a variable one that can be opened.
    fn group(&mut self, mut variable: Value, group: Group, count: usize) -> Value {
        if count > 0 {
            variable["variablesReference"] = self.numbered_group(group).into();
            variable["indexedVariables"] = count.into();
        }
        variable
    }

    /// Returns a field of a thing, with the expression that an editor can watch.
    fn named_field(&self, owner: &str, thing: Entity, field: Field) -> Value {
        let value = field_of(self.recording.walk(), thing, field);
        let mut shown = variable(
            field.name(),
            value.map_or(String::new(), |value| value.to_string()),
        );
        if let Some(owner) = self.expression_of(owner, thing) {
            shown["evaluateName"] = format!("{owner}.{}", field.name()).into();
        }
        shown
    }

    /// Returns the expression for a thing: its name, if no other has that, or else its numbers.
    fn expression_of(&self, name: &str, thing: Entity) -> Option<String> {
        let is_word = !name.is_empty()
            && name
                .chars()
                .all(|c| c.is_alphanumeric() || matches!(c, '_' | '-' | ':' | '#'));
        if thing_of(name, &self.recording) == Some(thing) && !name.contains('`') {
            return Some(if is_word {
                name.to_string()
            } else {
                format!("`{name}`")
            });
        }
        match thing {
            Entity::Channel(channel) => Some(format!("channel{channel}")),
            Entity::Receiver(channel, handle) => {
                let number = self.recording.things.number_of(channel, handle);
                Some(format!("channel{channel}.receiver{number}"))
            }
            Entity::Actor(_) => None,
        }
    }

    fn receivers(&mut self, channel: u32, at: u32, range: Range) -> Vec<Value> {
        let Some(shown) = self.recording.at(at).channel(channel) else {
            return vec![];
        };
        let handles: Vec<u32> = range
            .of(shown.receivers())
            .map(|(_, handle)| handle)
            .collect();
        let receivers = handles.into_iter().map(|handle| {
            let thing = Entity::Receiver(channel, handle);
            let name = self.recording.names.receiver(channel, handle);
            let mut shown = variable(name.as_str(), text_of(thing, &self.recording));
            shown["variablesReference"] = self
                .numbered_group(Group::Receiver(channel, handle, at))
                .into();
            if let Some(expression) = self.expression_of(&name, thing) {
                shown["evaluateName"] = expression.into();
            }
            if let Some(made) = self.recording.names.made(channel, handle) {
                shown["declarationLocationReference"] = (made + 1).into();
            }
            shown
        });
        receivers.collect()
    }

    fn of_receiver(&mut self, channel: u32, handle: u32, at: u32) -> Vec<Value> {
        let name = self.recording.names.receiver(channel, handle);
        let thing = Entity::Receiver(channel, handle);
        let Some(shown) = self.recording.at(at).channel(channel) else {
            return vec![];
        };
        let (fields, unread): (&[Field], _) = match shown {
            Channel::Broadcast(it) => {
                let fields = &[Field::Unread, Field::Lag, Field::Position];
                (
                    fields,
                    it.receiver(handle).map(|it| {
                        let lag = self.recording.names.lag(channel, handle, it.lag);
                        (it.unread - it.lag, lag)
                    }),
                )
            }
            Channel::Watch(_) => (&[Field::Seen], None),
        };
        let fields = fields
            .iter()
            .map(|field| self.named_field(&name, thing, *field));
        let mut variables: Vec<_> = fields.collect();
        if let Some((count, lag)) = unread {
            let group = Group::Unread(channel, handle, at);
            let retained = variable("to receive", counted(count as usize));
            variables.push(self.group(retained, group, count as usize));
            if lag > 0 {
                variables.push(variable("its next receive", format!("lagged {lag}")));
            }
        }
        if let Some(at) = self
            .recording
            .names
            .made(channel, handle)
            .and_then(|made| self.recording.names.locations().get(made))
        {
            variables.push(variable("created at", format!("{}:{}", at.file, at.line)));
        }
        variables
    }

    /// Returns the values of a window, without the first ones.
    fn of_window(&mut self, channel: u32, at: u32, skipped: u64, range: Range) -> Vec<Value> {
        let walk = self.recording.at(at);
        let Some(Channel::Broadcast(shown)) = walk.channel(channel) else {
            return vec![];
        };
        let first = skipped.saturating_add(range.start);
        let last = first.saturating_add(range.count);
        let values: Vec<_> = (first..last)
            .map_while(|index| Some((index - skipped, shown.value(index)?)))
            .collect();
        let names = &self.recording.names;
        let values = values.into_iter();
        values
            .map(|(index, value)| variable(format!("[{index}]"), names.value(channel, value)))
            .collect()
    }

    fn of_unread(&mut self, channel: u32, handle: u32, at: u32, range: Range) -> Vec<Value> {
        let Some(Channel::Broadcast(shown)) = self.recording.at(at).channel(channel) else {
            return vec![];
        };
        let retained = shown.sent().min(shown.capacity());
        let own = shown.receiver(handle).map_or(0, |it| it.unread - it.lag);
        self.of_window(channel, at, retained.saturating_sub(own), range)
    }

    fn waits(&self) -> Vec<Value> {
        let waits = self.recording.waits.iter();
        let waits = waits.map(|wait| {
            variable(
                self.recording.names.channel(wait.channel),
                wait.text.clone(),
            )
        });
        waits.collect()
    }

    fn found(&self, range: Range) -> Vec<Value> {
        let lines = self.recording.names.report().lines();
        range
            .of(lines)
            .map(|(index, line)| variable(format!("{}", index + 1), line))
            .collect()
    }
}

fn counted(count: usize) -> String {
    match count {
        1 => "1 value".to_string(),
        count => format!("{count} values"),
    }
}
