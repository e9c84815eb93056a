//! Random requests, and what the model takes from their answers.

use super::expected::{Expected, Phase, Point, Stop};
use crate::support::Random;
use serde_json::{Value, json};
use std::path::{Path, PathBuf};

/// A request, and whether it is answered in a session that has stopped, if the model knows.
#[derive(Debug)]
pub struct Request {
    pub command: String,
    pub arguments: Value,
    pub is_right: Option<bool>,
    /// Where it leads, if the request says so itself.
    target: Option<(u32, &'static str)>,
    /// The breakpoints that it sets.
    points: Vec<Point>,
}

// The commands that move, and the phrases of the console.
const MOVES: [&str; 5] = ["next", "stepBack", "stepOut", "continue", "reverseContinue"];

/// The path of the file whose calls the runs have.
fn source() -> Value {
    let package = std::env::var_os("CARGO_MANIFEST_DIR").expect("cargo runs the tests");
    json!({"path": PathBuf::from(package).join("tests/adapter/states.rs")})
}

fn request(command: &str, arguments: Value, is_right: bool) -> Request {
    Request {
        command: command.to_string(),
        arguments,
        is_right: Some(is_right),
        target: None,
        points: vec![],
    }
}

/// Makes a request of any kind.
pub fn any(expected: &Expected, journal: &Path, random: &mut Random) -> Request {
    let launch = json!({"journal": journal, "stopAt": "end"});
    // A session goes on, sooner or later.
    match (expected.phase, random.below(5)) {
        (Phase::Begun | Phase::Ended, 0) => return request("launch", launch, true),
        (Phase::Launched, 0) => return request("configurationDone", json!({}), true),
        _ => {}
    }
    match random.below(48) {
        0 => request("initialize", json!({"adapterID": "yovanelum"}), true),
        1 => request("launch", launch, true),
        2 => request("launch", json!({"journal": "/there/is/no.journal"}), false),
        3 => request("restart", json!({}), true),
        4 if random.below(3) == 0 => request("terminate", json!({}), true),
        5 => request("configurationDone", json!({}), true),
        8 => request("cancel", json!({"requestId": random.below(50)}), true),
        9 => {
            let command = *random.of(&["pause", "setVariable"]);
            request(command, json!({}), false)
        }
        6..=7 | 10..=15 => moves(expected, random),
        16..=20 => jump(expected, random),
        21..=23 => typed(expected, random),
        24..=30 => points(expected, random),
        _ => look(expected, random),
    }
}

fn thread(expected: &Expected, random: &mut Random) -> u32 {
    random.of(&expected.run.actors) + 1
}

fn moves(expected: &Expected, random: &mut Random) -> Request {
    let command = *random.of(&MOVES);
    let mut given = json!({"threadId": thread(expected, random)});
    if random.below(3) == 0 {
        given["granularity"] = json!(*random.of(&["instruction", "line", "statement"]));
    }
    if random.below(3) == 0 {
        given["singleThread"] = json!(random.below(2) == 0);
    }
    if random.below(10) == 0 {
        given["threadId"] = json!(*random.of(&[0, 99]));
        return request(command, given, false);
    }
    request(command, given, true)
}

/// Goes to a target, or to the place of a frame.
fn jump(expected: &Expected, random: &mut Random) -> Request {
    let place = random.below(expected.run.len() as usize + 3) as u32;
    let is_there = place <= expected.run.len();
    let thread = thread(expected, random);
    let kinds = if expected.frames.is_empty() { 3 } else { 6 };
    let (command, arguments, reason) = match random.below(kinds) {
        0 => (
            "goto",
            json!({"threadId": thread, "targetId": place}),
            "goto",
        ),
        1 => (
            "stepIn",
            json!({"threadId": thread, "targetId": place}),
            "step",
        ),
        _ => {
            let (frame, at) = frame(expected, random);
            let made = request("restartFrame", json!({"frameId": frame}), at.is_some());
            return Request {
                target: at.map(|at| (at, "restart")),
                ..made
            };
        }
    };
    let target = is_there.then_some((place, reason));
    Request {
        target,
        ..request(command, arguments, is_there)
    }
}

/// A frame of this stop with its place, of an earlier one, or of none.
fn frame(expected: &Expected, random: &mut Random) -> (u64, Option<u32>) {
    let frames: Vec<_> = expected.frames.iter().collect();
    let old: Vec<_> = expected.old_frames.iter().collect();
    match random.below(6) {
        0 if !old.is_empty() => (**random.of(&old), None),
        1 => (1_000_000, None),
        _ if frames.is_empty() => (0, None),
        _ => {
            let (frame, at) = *random.of(&frames);
            (*frame, Some(*at))
        }
    }
}

/// Types a command of the console.
fn typed(expected: &Expected, random: &mut Random) -> Request {
    let (place, last) = (expected.place, expected.run.len());
    let by = random.below(4) as u32;
    let to = random.below(last as usize + 3) as u32;
    let (text, target) = match random.below(8) {
        0 => (format!("back {by}"), place.checked_sub(by)),
        1 => (format!("forward {by}"), Some(place + by)),
        2 => (format!("goto {to}"), Some(to)),
        3 => ("start".to_string(), Some(0)),
        4 => ("end".to_string(), Some(last)),
        5 if random.below(6) == 0 => ("quit".to_string(), None),
        _ => (
            random
                .of(&[
                    "state",
                    "state json",
                    "list",
                    "step",
                    "why",
                    "help",
                    "# it",
                    "",
                ])
                .to_string(),
            None,
        ),
    };
    let target = target
        .filter(|target| *target <= last)
        .map(|target| (target, "goto"));
    let given = json!({"expression": text, "context": "repl"});
    Request {
        target,
        ..request("evaluate", given, true)
    }
}

/// Sets breakpoints of one kind.
fn points(expected: &Expected, random: &mut Random) -> Request {
    let kind = random.below(4);
    let (mut asked, mut points) = (vec![], vec![]);
    for _ in 0..random.below(4) {
        let (mut given, mut point) = match kind {
            0 => line(expected, random),
            1 => function(expected, random),
            2 => data(expected, random),
            _ => filter(expected, random),
        };
        // A number that is in the condition of data is no condition besides.
        if kind != 2 && random.below(3) == 0 {
            given["condition"] = expected.keep(&mut point, random.below(5));
        }
        if kind < 2 && random.below(4) == 0 {
            given["hitCondition"] = Expected::count(&mut point, random.below(4));
        }
        if kind == 0 && random.below(4) == 0 {
            given["logMessage"] = json!("at {number}");
            point.is_log = true;
        }
        if kind == 0 && random.below(10) == 0 {
            given["condition"] = json!("number >");
            point.hits = None;
        }
        asked.push(given);
        points.push(point);
    }
    let (command, given) = match kind {
        0 => (
            "setBreakpoints",
            json!({"source": source(), "breakpoints": asked}),
        ),
        1 => ("setFunctionBreakpoints", json!({"breakpoints": asked})),
        2 => ("setDataBreakpoints", json!({"breakpoints": asked})),
        _ => (
            "setExceptionBreakpoints",
            json!({"filters": [], "filterOptions": asked}),
        ),
    };
    Request {
        points,
        ..request(command, given, true)
    }
}

fn line(expected: &Expected, random: &mut Random) -> (Value, Point) {
    let lines: Vec<_> = expected
        .run
        .calls
        .iter()
        .map(|call| call.line)
        .filter(|line| *line > 0)
        .collect();
    let near = *random.of(&lines) + random.below(3) as u64 - 1;
    let line = if random.below(8) == 0 { 100_000 } else { near };
    (json!({"line": line}), expected.at_line(line))
}

fn function(expected: &Expected, random: &mut Random) -> (Value, Point) {
    let heads = [
        None,
        Some("orders"),
        Some("level"),
        Some("task-0"),
        Some("task-1"),
        Some("nobody"),
    ];
    let (head, method) = (
        *random.of(&heads),
        *random.of(&[
            "send",
            "try_recv",
            "borrow",
            "drop",
            "subscribe",
            "clone",
            "recv",
        ]),
    );
    let name = head.map_or(method.to_string(), |head| format!("{head}.{method}"));
    (json!({"name": name}), expected.at_function(head, method))
}

fn data(expected: &Expected, random: &mut Random) -> (Value, Point) {
    let mut receivers = expected.run.receivers();
    receivers.push(77);
    let (receiver, number) = (*random.of(&receivers), 1 + random.below(4) as u64);
    let word = *random.of(&["lagging", "unread", "queue"]);
    let of = if word == "queue" {
        "queue 0".to_string()
    } else {
        format!("{word} 0 {receiver}")
    };
    let point = expected.of_data(word, receiver, number);
    let given = match (word, random.below(2)) {
        ("lagging", _) => json!({"dataId": of}),
        (_, 0) => json!({"dataId": format!("{of} {number}")}),
        _ => json!({"dataId": format!("{of} N"), "condition": format!("= {number}")}),
    };
    if random.below(8) == 0 {
        return (
            json!({"dataId": "closed 9"}),
            Point {
                hits: None,
                ..point
            },
        );
    }
    (given, point)
}

fn filter(expected: &Expected, random: &mut Random) -> (Value, Point) {
    let filter = *random.of(&["lost", "lagged", "closed"]);
    (json!({"filterId": filter}), expected.of_filter(filter))
}

/// Asks for what is shown.
fn look(expected: &Expected, random: &mut Random) -> Request {
    let (frame, at) = frame(expected, random);
    let of_frame = json!({"frameId": frame});
    // What is asked for first, and then for what it refers to.
    let kind = match (expected.frames.is_empty(), expected.groups.is_empty()) {
        (true, _) => random.below(20),
        (_, true) => random.below(20).max(4),
        _ => random.below(20).max(5),
    };
    match kind {
        0 => request("threads", json!({}), true),
        1..=3 | 13..=14 if kind < 13 || expected.frames.is_empty() => request(
            "stackTrace",
            json!({"threadId": thread(expected, random), "levels": random.below(5)}),
            true,
        ),
        4 | 15..=17 => request("scopes", of_frame, at.is_some()),
        5..=7 | 13..=14 | 18..=19 => variables(expected, random),
        8 => request(
            "evaluate",
            json!({"expression": "orders.queued", "context": "hover", "frameId": frame}),
            at.is_some() || frame == 0,
        ),
        9 => request(
            "gotoTargets",
            json!({"source": source(), "line": line(expected, random).0["line"]}),
            true,
        ),
        10 => request(
            "breakpointLocations",
            json!({"source": source(), "line": 1, "endLine": 20 + random.below(50)}),
            true,
        ),
        _ => {
            let (command, given) = random
                .of(&[
                    ("completions", json!({"text": "rback lagg", "column": 11})),
                    ("loadedSources", json!({})),
                    ("dataBreakpointInfo", json!({"name": "orders.queued"})),
                    ("dataBreakpointInfo", json!({"name": "nobody"})),
                ])
                .clone();
            request(command, given, true)
        }
    }
}

fn variables(expected: &Expected, random: &mut Random) -> Request {
    let groups: Vec<_> = expected.groups.iter().collect();
    let old: Vec<_> = expected.old_groups.iter().collect();
    let (group, is_there) = match random.below(5) {
        0 if !old.is_empty() => (**random.of(&old), false),
        1 => (0, false),
        _ if groups.is_empty() => (1_000_000, false),
        _ => (**random.of(&groups), true),
    };
    let mut given = json!({"variablesReference": group});
    if random.below(3) == 0 {
        given["start"] = json!(random.below(3));
        given["count"] = json!(random.below(4));
    }
    request("variables", given, is_there)
}

impl Request {
    /// The stop that the request leads to, if it moves.
    pub fn stop(&self, expected: &Expected) -> Option<Stop> {
        if MOVES.contains(&self.command.as_str()) {
            return Some(expected.stop_of(&self.command, &self.arguments));
        }
        self.target.map(|(place, reason)| Stop::at(place, reason))
    }

    /// Takes from an answer what later requests refer to, and compares it.
    pub fn take(&self, expected: &mut Expected, body: &Value, why: &str) {
        match self.command.as_str() {
            "setBreakpoints" => self.take_points("source", expected, body, why),
            "setFunctionBreakpoints" => self.take_points("functions", expected, body, why),
            "setDataBreakpoints" => self.take_points("data", expected, body, why),
            "setExceptionBreakpoints" => self.take_points("exceptions", expected, body, why),
            "stackTrace" => self.take_frames(expected, body, why),
            "scopes" => take_groups(expected, &body["scopes"]),
            "variables" => take_groups(expected, &body["variables"]),
            "evaluate" if self.arguments["context"] == "hover" => {
                let frame = self.arguments["frameId"].as_u64().unwrap();
                let at = expected
                    .frames
                    .get(&frame)
                    .copied()
                    .unwrap_or(expected.place);
                assert_eq!(body["result"], expected.run.queued(at).to_string(), "{why}");
            }
            "gotoTargets" => {
                let line = self.arguments["line"].as_u64().unwrap();
                let places = expected.run.places(|call| call.line == line);
                let told = body["targets"].as_array().unwrap().iter();
                let told: Vec<_> = told.map(|it| it["id"].as_u64().unwrap() as u32).collect();
                assert!(told.iter().all(|place| places.contains(place)), "{why}");
                assert_eq!(told.len(), places.len().min(20), "{why}");
            }
            "breakpointLocations" => self.take_locations(expected, body, why),
            _ => {}
        }
    }

    fn take_points(&self, kind: &'static str, expected: &mut Expected, body: &Value, why: &str) {
        let told = body["breakpoints"].as_array().unwrap();
        assert_eq!(told.len(), self.points.len(), "{why}");
        let mut set = vec![];
        for (told, point) in told.iter().zip(&self.points) {
            assert_eq!(told["verified"], point.hits.is_some(), "{why}");
            assert_eq!(told["message"].is_string(), point.hits.is_none(), "{why}");
            assert_eq!(told["line"].as_u64(), point.line, "{why}");
            set.push((told["id"].as_u64().unwrap(), point.clone()));
        }
        let others = expected.points.values().flatten();
        let others: Vec<_> = others.map(|(id, _)| *id).collect();
        assert!(set.iter().all(|(id, _)| !others.contains(id)), "{why}");
        expected.points.insert(kind, set);
    }

    fn take_frames(&self, expected: &mut Expected, body: &Value, why: &str) {
        let actor = self.arguments["threadId"].as_u64().unwrap() as u32 - 1;
        let own = (1..=expected.place)
            .rev()
            .filter(|place| expected.run.call(*place).actor == actor);
        let own: Vec<_> = own.collect();
        assert_eq!(body["totalFrames"], own.len().max(1), "{why}");
        let levels = self.arguments["levels"].as_u64().unwrap() as usize;
        let frames = body["stackFrames"].as_array().unwrap();
        let wanted = if levels == 0 {
            own.len().max(1)
        } else {
            levels.min(own.len().max(1))
        };
        assert_eq!(frames.len(), wanted, "{why}");
        for (index, frame) in frames.iter().enumerate() {
            let at = if index == 0 {
                expected.place
            } else {
                own[index]
            };
            let call = own.get(index).map(|place| expected.run.call(*place));
            if let Some(call) = call.filter(|call| call.line > 0) {
                assert_eq!(frame["line"], call.line, "{why}");
            }
            expected.frames.insert(frame["id"].as_u64().unwrap(), at);
        }
    }

    fn take_locations(&self, expected: &Expected, body: &Value, why: &str) {
        let last = self.arguments["endLine"].as_u64().unwrap();
        let lines = expected.run.calls.iter().map(|call| call.line);
        let lines: std::collections::BTreeSet<_> =
            lines.filter(|line| (1..=last).contains(line)).collect();
        let told = body["breakpoints"].as_array().unwrap().iter();
        let told: std::collections::BTreeSet<_> =
            told.map(|it| it["line"].as_u64().unwrap()).collect();
        assert_eq!(told, lines, "{why}");
    }
}

fn take_groups(expected: &mut Expected, shown: &Value) {
    let groups = shown.as_array().unwrap().iter();
    let groups = groups.filter_map(|it| it["variablesReference"].as_u64());
    expected.groups.extend(groups.filter(|group| *group > 0));
}
