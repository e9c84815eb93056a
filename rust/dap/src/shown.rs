//! Threads, frames, scopes, and what was found at a place.

use crate::arguments::Arguments;
use crate::expression::Entity;
use crate::moves::{Debuggee, thread_of};
use crate::recording::Recording;
use crate::variables::Group;
use crate::{Answer, Refusal};
use serde_json::{Value, json};
use yovanelum::debugger::Channel;

/// How many frames are returned where the client doesn't say, and at most. The total is always
/// said.
const FRAMES: u64 = 200;
const MOST_FRAMES: u64 = 10_000;

/// Where no call of a window has been made yet.
const BEFORE: &str = "before the window";

/// What a frame stands for.
#[derive(Clone, Copy)]
pub(crate) struct Frame {
    /// The place that its call leads to, if it is one that ended.
    pub(crate) call: Option<u32>,
    /// The place at which its variables are shown.
    pub(crate) at: u32,
}

impl Debuggee {
    pub(crate) fn threads(&self) -> Answer {
        let actors = self.recording.actors().into_iter();
        let threads = actors.map(
            |actor| json!({"id": thread_of(actor), "name": self.recording.names.actor(actor)}),
        );
        Ok(json!({"threads": threads.collect::<Vec<_>>()}))
    }

    /// Returns the calls of an actor up to the place, the last one first. At the end, the call that
    /// it waits in is above them.
    pub(crate) fn stack_trace(&mut self, given: Arguments<'_>) -> Answer {
        let actor = self.actor_of(given.need_number("threadId")?)?;
        let start = given.number("startFrame")?.unwrap_or(0);
        let levels = given.number("levels")?.filter(|levels| *levels > 0);
        let levels = levels.unwrap_or(FRAMES).min(MOST_FRAMES);
        let own = self.recording.places_of_actor(actor);
        let calls = own.partition_point(|place| *place <= self.place);
        let waits = self.waits_of(actor);
        let first = (waits + calls == 0).then(|| own.first().copied());
        let total = (waits + calls).max(1) as u64;
        let mut frames = vec![];
        for index in start..start.saturating_add(levels).min(total) {
            let index = index as usize;
            let called = calls.checked_sub(index.saturating_sub(waits) + 1);
            let place =
                called.and_then(|it| self.recording.places_of_actor(actor).get(it).copied());
            frames.push(match (first, place) {
                (Some(first), _) => self.frame_before(first),
                (None, _) if index < waits => self.frame_of_wait(actor, index),
                (None, place) => self.frame_of_call(place.unwrap_or(0), index == 0),
            });
        }
        Ok(json!({"stackFrames": frames, "totalFrames": total}))
    }

    /// How many calls an actor waits in at the place.
    fn waits_of(&self, actor: u32) -> usize {
        let is_at_end = self.place == self.recording.len();
        let waits = self.recording.waits.iter();
        waits
            .filter(|wait| is_at_end && wait.actor == actor)
            .count()
    }

    fn numbered(&mut self, frame: Frame, name: String) -> Value {
        let number = self.frames.add(frame);
        json!({"id": number, "name": name, "line": 0, "column": 0})
    }

    fn frame_of_call(&mut self, place: u32, is_top: bool) -> Value {
        let call = self.call_text(place);
        let (name, at) = if is_top {
            (call, self.place)
        } else {
            (format!("call {place}: {call}"), place)
        };
        let mut frame = self.numbered(
            Frame {
                call: Some(place),
                at,
            },
            name,
        );
        frame["canRestart"] = true.into();
        if !is_top {
            frame["presentationHint"] = "subtle".into();
        }
        let location = self
            .recording
            .location(place)
            .or_else(|| self.made_at(place));
        self.put_location(&mut frame, location);
        frame
    }

    /// The compiler calls a drop, so that has the line at which its handle was created.
    fn made_at(&self, place: u32) -> Option<usize> {
        let entry = self.recording.entry(place)?;
        self.recording.names.made(entry.channel(), entry.handle())
    }

    fn frame_before(&mut self, first: Option<u32>) -> Value {
        let frame = Frame {
            call: None,
            at: self.place,
        };
        let is_before = self.recording.first() > 0 && self.place <= self.recording.first();
        let name = if is_before {
            BEFORE
        } else {
            "before its first call"
        };
        let mut frame = self.numbered(frame, name.to_string());
        let first = first.filter(|_| !is_before);
        let location = first.and_then(|place| self.recording.location(place));
        self.put_location(&mut frame, location);
        frame
    }

    fn frame_of_wait(&mut self, actor: u32, index: usize) -> Value {
        let waits = self
            .recording
            .waits
            .iter()
            .filter(|wait| wait.actor == actor);
        let Some(wait) = waits.into_iter().nth(index) else {
            return Value::Null;
        };
        let (name, location) = (format!("waits: {}", wait.text), wait.location.clone());
        let mut frame = self.numbered(
            Frame {
                call: None,
                at: self.place,
            },
            name,
        );
        if let Some((file, line, column)) = location {
            frame["source"] = self.recording.sources.source(&file);
            frame["line"] = self.bases.shown_line(line).into();
            frame["column"] = self.bases.shown_column(column).into();
        }
        frame
    }

    /// Adds the source, the line and the column of a location.
    pub(crate) fn put_location(&self, body: &mut Value, location: Option<usize>) {
        let Some(at) = location.and_then(|index| self.recording.names.locations().get(index))
        else {
            return;
        };
        body["source"] = self.recording.sources.source(&at.file);
        body["line"] = self.bases.shown_line(at.line.into()).into();
        body["column"] = self.bases.shown_column(at.column.into()).into();
    }

    /// Returns a call with what it returned.
    pub(crate) fn call_text(&self, place: u32) -> String {
        let names = &self.recording.names;
        let Some(entry) = self.recording.entry(place) else {
            let start = if self.recording.first() > 0 {
                BEFORE
            } else {
                "the start"
            };
            return start.to_string();
        };
        format!(
            "{} = {}",
            names.call(place.into(), &entry),
            names.reply(&entry)
        )
    }

    pub(crate) fn frame_of(&self, id: u64) -> Answer<Frame> {
        let frame = self.frames.get(id);
        frame.ok_or_else(|| Refusal::new("there is no such frame at this stop"))
    }

    /// Gives a group of variables a number.
    pub(crate) fn numbered_group(&mut self, group: Group) -> usize {
        self.groups.add(group)
    }

    /// Returns the call, the channels with that of the call first, and the report.
    pub(crate) fn scopes(&mut self, given: Arguments<'_>) -> Answer {
        let Frame { call, at } = self.frame_of(given.need_number("frameId")?)?;
        let own = call
            .and_then(|call| self.recording.entry(call))
            .map(|entry| entry.channel());
        let mut scopes = vec![];
        if let Some(call) = call {
            let group = self.numbered_group(Group::Call(call));
            scopes.push(json!({"name": format!("Call {call}"), "presentationHint": "arguments", "variablesReference": group, "expensive": false}));
        }
        let others = (0..self.recording.walk().channels()).filter(|channel| Some(*channel) != own);
        for channel in own.into_iter().chain(others) {
            let group = self.numbered_group(Group::Channel(channel, at));
            let name = format!(
                "{} {}",
                self.recording.names.channel(channel),
                self.after(at)
            );
            scopes.push(json!({"name": name, "presentationHint": "locals", "variablesReference": group, "expensive": false}));
        }
        if let Some(task) = call.and_then(|call| self.task_of(call)) {
            let group = self.numbered_group(Group::Task(task, at));
            scopes.push(json!({"name": "Task", "variablesReference": group, "expensive": false}));
        }
        if at == self.recording.len() && !self.recording.waits.is_empty() {
            let group = self.numbered_group(Group::Waits);
            scopes.push(
                json!({"name": "Calls that wait", "variablesReference": group, "expensive": false}),
            );
        }
        let group = self.numbered_group(Group::Found);
        scopes.push(
            json!({"name": "What was found", "variablesReference": group, "expensive": true}),
        );
        Ok(json!({"scopes": scopes}))
    }

    /// Returns the task that made a call, if it was seen.
    fn task_of(&self, call: u32) -> Option<usize> {
        let entry = self.recording.entry(call)?;
        self.recording.tasks.task_of(entry.actor(), entry.stamp())
    }

    /// Returns what goes wrong at the place, in the words of the report.
    pub(crate) fn exception(&self) -> Option<String> {
        let mut facts = self.recording.facts.iter();
        if let Some(fact) = facts.find(|fact| fact.places.contains(&self.place)) {
            return Some(fact.lines.join("\n"));
        }
        let names = &self.recording.names;
        if let Some(loss) = self.recording.loss_at(self.place) {
            let receiver = names.receiver(loss.channel, loss.receiver);
            let (lost, channel) = (loss.lost, names.channel(loss.channel));
            let by = match loss.from {
                from if from <= self.recording.first() => BEFORE.to_string(),
                from => format!("by call {from}"),
            };
            return Some(format!(
                "`{receiver}` lost {lost} of the values of `{channel}`; the first was overwritten {by}"
            ));
        }
        let entry = self.recording.entry(self.place)?;
        let channel = names.channel(entry.channel());
        (entry.reply() == "closed").then(|| format!("`{channel}` is closed"))
    }

    /// Says at which place something is shown: after the call that leads to it.
    pub(crate) fn after(&self, place: u32) -> String {
        match place {
            place if place <= self.recording.first() => "before the first call".to_string(),
            call => format!("after call {call}"),
        }
    }

    pub(crate) fn exception_info(&self) -> Answer {
        let text = self
            .exception()
            .ok_or_else(|| Refusal::new("nothing was found at this call"))?;
        let entry = self.recording.entry(self.place);
        let told = entry.map(|entry| entry.reply());
        let told = told.filter(|reply| matches!(*reply, "lagged" | "closed"));
        let id = told.unwrap_or("lost");
        Ok(json!({
            "exceptionId": id,
            "description": text,
            "breakMode": "always",
            "details": {"message": text, "typeName": id, "stackTrace": self.recording.names.report()},
        }))
    }
}

/// Returns what a receiver or a channel is at the walk's place, on one line.
pub(crate) fn text_of(thing: Entity, recording: &Recording) -> String {
    let walk = recording.walk();
    let gone = || "not there".to_string();
    match thing {
        Entity::Actor(actor) => recording.names.actor(actor),
        Entity::Channel(channel) => match walk.channel(channel) {
            Some(Channel::Broadcast(it)) => {
                format!("broadcast, queued {} of {}", it.queued(), it.capacity())
            }
            Some(Channel::Watch(it)) => {
                format!("watch, {}", recording.names.value(channel, it.value()))
            }
            None => gone(),
        },
        Entity::Receiver(channel, handle) => match walk.channel(channel) {
            Some(Channel::Broadcast(it)) => it.receiver(handle).map_or_else(gone, |it| {
                let lag = recording.names.lag(channel, handle, it.lag);
                format!("unread {}, lag {lag}", it.unread - it.lag + lag)
            }),
            Some(Channel::Watch(it)) => it.receiver(handle).map_or_else(gone, |it| {
                if it.is_seen { "seen" } else { "unseen" }.to_string()
            }),
            None => gone(),
        },
    }
}
