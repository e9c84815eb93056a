//! What a session has to answer: its phase, its place, its breakpoints, and where moves lead.

use super::run::Run;
use serde_json::{Value, json};
use std::collections::{BTreeMap, BTreeSet};

/// How far a session is.
#[derive(Clone, Copy, Debug, PartialEq, Eq)]
pub enum Phase {
    Begun,
    Launched,
    Stopped,
    Ended,
}

/// A breakpoint that was asked for.
#[derive(Clone, Debug)]
pub struct Point {
    pub reason: &'static str,
    pub is_log: bool,
    /// The places of its hits, or nothing if it isn't verified.
    pub hits: Option<Vec<u32>>,
    /// The line that the client is told.
    pub line: Option<u64>,
}

/// A stop that has to be told.
#[derive(Debug)]
pub struct Stop {
    pub place: u32,
    /// Which reasons it may have.
    pub reasons: Vec<&'static str>,
    pub hit: BTreeSet<u64>,
    /// The places whose log points print, in their order.
    pub printed: Vec<u32>,
}

impl Stop {
    pub fn at(place: u32, reason: &'static str) -> Stop {
        Stop {
            place,
            reasons: vec![reason],
            hit: BTreeSet::new(),
            printed: vec![],
        }
    }
}

/// A session over a run.
pub struct Expected {
    pub run: Run,
    pub phase: Phase,
    pub place: u32,
    /// By what sets them, with the numbers that the adapter gave them.
    pub points: BTreeMap<&'static str, Vec<(u64, Point)>>,
    /// The references of this stop, and those of earlier ones.
    pub groups: BTreeSet<u64>,
    pub old_groups: BTreeSet<u64>,
    /// The frames of this stop with the places that they show, and those of earlier ones.
    pub frames: BTreeMap<u64, u32>,
    pub old_frames: BTreeSet<u64>,
}

impl Expected {
    pub fn of(run: Run) -> Expected {
        Expected {
            run,
            phase: Phase::Begun,
            place: 0,
            points: BTreeMap::new(),
            groups: BTreeSet::new(),
            old_groups: BTreeSet::new(),
            frames: BTreeMap::new(),
            old_frames: BTreeSet::new(),
        }
    }

    /// Takes that the session is at another stop, or has none any more.
    pub fn leave(&mut self) {
        self.old_groups.append(&mut self.groups);
        self.old_frames
            .extend(std::mem::take(&mut self.frames).into_keys());
    }

    /// Where a move leads: a request of a command with these arguments.
    pub fn stop_of(&self, command: &str, given: &Value) -> Stop {
        let actor = given["threadId"].as_u64().unwrap() as u32 - 1;
        let is_one = given["granularity"] == "instruction";
        let is_own = |place: &u32| is_one || self.run.call(*place).actor == actor;
        let later = self.place + 1..=self.run.len();
        let (first, last) = (0, self.run.len());
        match command {
            "next" => Stop::at(later.into_iter().find(is_own).unwrap_or(last), "step"),
            "stepBack" if is_one => Stop::at(self.place.saturating_sub(1), "step"),
            "stepBack" => Stop::at((1..self.place).rev().find(is_own).unwrap_or(first), "step"),
            "stepOut" => Stop::at((self.place + 1).min(last), "step"),
            "continue" => self.nearest(later, last, given),
            "reverseContinue" => self.nearest((1..self.place).rev(), first, given),
            other => panic!("{other} is no move"),
        }
    }

    /// The first of these places with a hit, or the end.
    fn nearest(&self, places: impl Iterator<Item = u32>, end: u32, given: &Value) -> Stop {
        let only = (given["singleThread"] == true).then(|| given["threadId"].as_u64().unwrap());
        let mut stop = Stop::at(end, "step");
        for place in places {
            let is_of = |is_log| {
                let all = self.points.values().flatten();
                all.filter(move |(_, point)| {
                    let is_hit = point
                        .hits
                        .as_ref()
                        .is_some_and(|hits| hits.contains(&place));
                    is_hit && point.is_log == is_log
                })
            };
            stop.printed.extend(is_of(true).map(|_| place));
            let is_other =
                only.is_some_and(|only| u64::from(self.run.call(place).actor) + 1 != only);
            let hit: Vec<_> = is_of(false).filter(|_| !is_other).collect();
            if hit.is_empty() {
                continue;
            }
            let mut reasons: Vec<_> = hit.iter().map(|(_, point)| point.reason).collect();
            if reasons.contains(&"exception") {
                reasons = vec!["exception"];
            }
            let hit = hit.iter().map(|(id, _)| *id).collect();
            return Stop {
                place,
                reasons,
                hit,
                ..stop
            };
        }
        stop
    }

    /// The breakpoint of a line, which moves to the next line that has calls.
    pub fn at_line(&self, line: u64) -> Point {
        let lines = self.run.calls.iter().map(|call| call.line);
        let found = lines.filter(|it| *it >= line && *it > 0).min();
        Point {
            reason: "breakpoint",
            is_log: false,
            hits: found.map(|line| self.run.places(|call| call.line == line)),
            line: Some(found.unwrap_or(line)),
        }
    }

    /// The breakpoint of a function: a method, with a channel or an actor before it. An actor's
    /// name is that of its calls, also where a receiver is called by it.
    pub fn at_function(&self, head: Option<&str>, method: &str) -> Point {
        let channel = match head {
            Some("orders") => Some(0),
            Some("level") => Some(1),
            _ => None,
        };
        let actors = self.run.names.iter();
        let mut actors = actors.filter(|(_, name)| Some(name.as_str()) == head);
        let actor = actors.next().map(|(actor, _)| *actor);
        let places = self.run.places(|call| {
            let is_its = channel == Some(call.channel) || actor == Some(call.actor);
            call.method == method && (head.is_none() || is_its)
        });
        Point {
            reason: "function breakpoint",
            is_log: false,
            hits: Some(places).filter(|places| !places.is_empty()),
            line: None,
        }
    }

    /// The breakpoint of a condition on the broadcast.
    pub fn of_data(&self, word: &str, receiver: u32, number: u64) -> Point {
        let run = &self.run;
        let is_there = word == "queue" || run.receivers().contains(&receiver);
        let places = run.becoming(|place| match word {
            "lagging" => run.lag(place, receiver) > Some(0),
            "unread" => run
                .unread(place, receiver)
                .is_some_and(|unread| unread >= number),
            _ => run.queued(place) >= number,
        });
        Point {
            reason: "data breakpoint",
            is_log: false,
            hits: is_there.then_some(places),
            line: None,
        }
    }

    /// The breakpoint of a filter for what goes wrong.
    pub fn of_filter(&self, filter: &str) -> Point {
        let run = &self.run;
        let lags = |place: u32, receiver: &u32| run.lag(place, *receiver) > Some(0);
        let begins = |place: &u32| {
            let begins = |it: &u32| lags(*place, it) && !lags(place - 1, it);
            run.receivers().iter().any(begins)
        };
        let hits = match filter {
            "lost" => (1..=run.len()).filter(begins).collect(),
            _ => run.places(|call| call.reply == filter && call.method != "drop"),
        };
        Point {
            reason: "exception",
            is_log: false,
            hits: Some(hits),
            line: None,
        }
    }

    /// Leaves the hits that meet a condition. One of an actor that made no call is none.
    pub fn keep(&self, point: &mut Point, condition: usize) -> Value {
        let run = &self.run;
        let name = |place: u32| run.names.get(&run.call(place).actor).map(String::as_str);
        if condition == 1 && (1..=run.len()).all(|place| name(place) != Some("task-0")) {
            point.hits = None;
        }
        let (text, holds): (_, Box<dyn Fn(u32) -> bool>) = match condition {
            0 => ("number >= 5", Box::new(|place| place >= 5)),
            1 => (
                "actor task-0",
                Box::new(move |place| name(place) == Some("task-0")),
            ),
            2 => (
                "orders.queued > 1 || number = 2",
                Box::new(|place| run.queued(place) > 1 || place == 2),
            ),
            3 => (
                "reply sent && !(number < 4)",
                Box::new(|place| run.call(place).reply == "sent" && place >= 4),
            ),
            _ => return Value::Null,
        };
        if let Some(hits) = &mut point.hits {
            hits.retain(|place| holds(*place));
        }
        json!(text)
    }

    /// Leaves the hits whose numbers count.
    pub fn count(point: &mut Point, which: usize) -> Value {
        let (text, counts): (_, fn(u32) -> bool) = match which {
            0 => ("2", |nth| nth == 2),
            1 => (">= 2", |nth| nth >= 2),
            2 => ("% 2", |nth| nth % 2 == 0),
            _ => return Value::Null,
        };
        if let Some(hits) = &mut point.hits {
            let mut nth = 0;
            hits.retain(|_| {
                nth += 1;
                counts(nth)
            });
        }
        json!(text)
    }
}
