//! Expressions of names: `audit.lag > 0`, `closed orders`, `reply == "lagged 1"`. They read what is
//! shown at a place, and run nothing.

mod reading;
mod tokens;

use crate::recording::Recording;
use crate::{Answer, Refusal};
use std::cmp::Ordering;
use std::fmt;
use yovanelum::debugger::{Channel, Walk};

pub(crate) use yovanelum::debugger::recorded::Entity;

/// How many bytes an expression has at most. A longer one could be nested deeper than the stack is.
const LONGEST: usize = 4096;

/// A value that can be compared.
#[derive(Clone, Debug, PartialEq, Eq)]
pub(crate) enum Value {
    Number(u64),
    Flag(bool),
    Text(String),
}

/// A number or flag that a receiver or a channel has.
#[derive(Clone, Copy, Debug, PartialEq, Eq)]
pub(crate) enum Field {
    Lag,
    Unread,
    Position,
    Seen,
    Queued,
    Sent,
    Capacity,
    Version,
    Current,
    Closed,
    Senders,
    Receivers,
}

/// Each field with its name.
const FIELDS: [(Field, &str); 12] = [
    (Field::Lag, "lag"),
    (Field::Unread, "unread"),
    (Field::Position, "position"),
    (Field::Seen, "seen"),
    (Field::Queued, "queued"),
    (Field::Sent, "sent"),
    (Field::Capacity, "capacity"),
    (Field::Version, "version"),
    (Field::Current, "value"),
    (Field::Closed, "closed"),
    (Field::Senders, "senders"),
    (Field::Receivers, "receivers"),
];

impl Field {
    pub(crate) fn of(name: &str) -> Option<Field> {
        let found = FIELDS.iter().find(|(_, known)| *known == name);
        found.map(|(field, _)| *field)
    }

    pub(crate) fn name(self) -> &'static str {
        let found = FIELDS.iter().find(|(field, _)| *field == self);
        found.map_or("", |(_, name)| name)
    }
}

/// What is compared.
#[derive(Clone, Debug)]
pub(crate) enum Operand {
    Known(Value),
    Number,
    Actor,
    Call,
    Reply,
    Of(Entity, Field),
}

/// How two values are compared.
#[derive(Clone, Copy, Debug)]
pub(crate) enum Comparison {
    Equal,
    Unequal,
    Less,
    AtMost,
    More,
    AtLeast,
}

/// A condition, or a single value.
#[derive(Clone, Debug)]
pub(crate) enum Expression {
    Value(Operand),
    Compare(Operand, Comparison, Operand),
    Not(Box<Expression>),
    Both(Box<Expression>, Box<Expression>),
    Either(Box<Expression>, Box<Expression>),
    /// The call of the place is of this actor, or on this channel.
    Is(Entity),
    /// The first word of the reply.
    Replies(String),
}

impl Expression {
    /// Reads an expression over the names of a run.
    pub(crate) fn read(text: &str, recording: &Recording) -> Answer<Expression> {
        if text.len() > LONGEST {
            Err(Refusal::new("an expression has more than 4,096 bytes"))
        } else {
            reading::read(text, recording)
        }
    }

    /// Returns the value at the walk's place, or `None` where it is of something that isn't alive
    /// there.
    pub(crate) fn value(&self, recording: &Recording) -> Option<Value> {
        match self {
            Expression::Value(operand) => operand.value(recording),
            other => Some(Value::Flag(other.holds(recording))),
        }
    }

    /// Whether it holds at the walk's place. What isn't alive there meets nothing.
    pub(crate) fn holds(&self, recording: &Recording) -> bool {
        match self {
            Expression::Value(operand) => operand
                .value(recording)
                .is_some_and(|value| value.is_true()),
            Expression::Compare(left, how, right) => {
                let (left, right) = (left.value(recording), right.value(recording));
                left.zip(right)
                    .is_some_and(|(left, right)| how.holds(&left, &right))
            }
            Expression::Not(of) => !of.holds(recording),
            Expression::Both(left, right) => left.holds(recording) && right.holds(recording),
            Expression::Either(left, right) => left.holds(recording) || right.holds(recording),
            Expression::Is(thing) => is_of(*thing, recording),
            Expression::Replies(word) => {
                let walk = recording.walk();
                walk.entry(walk.place())
                    .is_some_and(|entry| entry.reply() == word)
            }
        }
    }
}

/// Whether the call of the walk's place is of this actor, on this channel, or by this receiver.
fn is_of(thing: Entity, recording: &Recording) -> bool {
    let walk = recording.walk();
    walk.entry(walk.place()).is_some_and(|entry| match thing {
        Entity::Actor(actor) => entry.actor() == actor,
        Entity::Channel(channel) => entry.channel() == channel,
        Entity::Receiver(channel, handle) => entry.channel() == channel && entry.handle() == handle,
    })
}

impl Operand {
    fn value(&self, recording: &Recording) -> Option<Value> {
        let (walk, names) = (recording.walk(), &recording.names);
        let place = walk.place();
        let entry = || walk.entry(place);
        Some(match self {
            Operand::Known(value) => value.clone(),
            Operand::Number => Value::Number(place),
            Operand::Actor => Value::Text(names.actor(entry()?.actor())),
            Operand::Call => Value::Text(names.call(place, &entry()?)),
            Operand::Reply => Value::Text(names.reply(&entry()?)),
            Operand::Of(Entity::Channel(channel), Field::Current) => {
                let Channel::Watch(watch) = walk.channel(*channel)? else {
                    return None;
                };
                let text = names.text(*channel, watch.value());
                Value::Text(
                    text.map_or_else(|| names.value(*channel, watch.value()), str::to_string),
                )
            }
            Operand::Of(thing, field) => field_of(walk, *thing, *field)?,
        })
    }
}

/// Returns a field of a thing at the walk's place, if it has it.
pub(crate) fn field_of(walk: &Walk, thing: Entity, field: Field) -> Option<Value> {
    match thing {
        Entity::Receiver(channel, handle) => of_receiver(&walk.channel(channel)?, handle, field),
        Entity::Channel(channel) => of_channel(&walk.channel(channel)?, field),
        Entity::Actor(_) => None,
    }
}

fn of_receiver(channel: &Channel<'_>, handle: u32, field: Field) -> Option<Value> {
    match channel {
        Channel::Broadcast(channel) => {
            let receiver = channel.receiver(handle)?;
            match field {
                Field::Lag => Some(Value::Number(receiver.lag)),
                Field::Unread => Some(Value::Number(receiver.unread)),
                Field::Position => Some(Value::Number(receiver.position)),
                _ => None,
            }
        }
        Channel::Watch(channel) => {
            let receiver = channel.receiver(handle)?;
            (field == Field::Seen).then_some(Value::Flag(receiver.is_seen))
        }
    }
}

fn of_channel(channel: &Channel<'_>, field: Field) -> Option<Value> {
    match (field, channel) {
        (Field::Closed, channel) => Some(Value::Flag(channel.is_closed())),
        (Field::Senders, channel) => Some(Value::Number(channel.senders().count() as u64)),
        (Field::Receivers, channel) => Some(Value::Number(channel.receivers().count() as u64)),
        (Field::Queued, Channel::Broadcast(it)) => Some(Value::Number(it.queued())),
        (Field::Sent, Channel::Broadcast(it)) => Some(Value::Number(it.sent())),
        (Field::Capacity, Channel::Broadcast(it)) => Some(Value::Number(it.capacity())),
        (Field::Version, Channel::Watch(it)) => Some(Value::Number(it.version())),
        _ => None,
    }
}

impl Comparison {
    fn holds(self, left: &Value, right: &Value) -> bool {
        let order = left.compared(right);
        match self {
            Comparison::Equal => order == Some(Ordering::Equal),
            Comparison::Unequal => order.is_some_and(Ordering::is_ne),
            Comparison::Less => order.is_some_and(Ordering::is_lt),
            Comparison::AtMost => order.is_some_and(Ordering::is_le),
            Comparison::More => order.is_some_and(Ordering::is_gt),
            Comparison::AtLeast => order.is_some_and(Ordering::is_ge),
        }
    }
}

impl Value {
    fn is_true(&self) -> bool {
        match self {
            Value::Number(number) => *number > 0,
            Value::Flag(flag) => *flag,
            Value::Text(text) => !text.is_empty(),
        }
    }

    /// Compares values of one kind. Others aren't compared.
    fn compared(&self, other: &Value) -> Option<Ordering> {
        match (self, other) {
            (Value::Number(left), Value::Number(right)) => Some(left.cmp(right)),
            (Value::Flag(left), Value::Flag(right)) => Some(left.cmp(right)),
            (Value::Text(left), Value::Text(right)) => Some(left.cmp(right)),
            _ => None,
        }
    }
}

impl fmt::Display for Value {
    fn fmt(&self, f: &mut fmt::Formatter<'_>) -> fmt::Result {
        match self {
            Value::Number(number) => write!(f, "{number}"),
            Value::Flag(flag) => write!(f, "{flag}"),
            Value::Text(text) => f.write_str(text),
        }
    }
}

/// Returns what a name stands for: a receiver, a channel, or an actor; or `channel0`, or the
/// receiver of a number as `orders.receiver1`.
pub(crate) fn thing_of(name: &str, recording: &Recording) -> Option<Entity> {
    recording.things.find(name)
}

fn unknown(name: &str) -> Refusal {
    Refusal(format!("there is no `{name}` in this run"))
}
