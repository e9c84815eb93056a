//! Streams of random requests: each request has one response, and nothing is written or run.

use crate::support::{Folder, Random, first_message, runs, save_bus, this_file};
use serde_json::{Value, json};
use std::fs;
use std::io::Cursor;
use std::path::Path;
use yovanelum_dap::{Options, serve};

const COMMANDS: [&str; 37] = [
    "initialize",
    "launch",
    "attach",
    "configurationDone",
    "threads",
    "stackTrace",
    "scopes",
    "variables",
    "evaluate",
    "completions",
    "next",
    "stepBack",
    "stepIn",
    "stepInTargets",
    "stepOut",
    "continue",
    "reverseContinue",
    "gotoTargets",
    "goto",
    "restartFrame",
    "exceptionInfo",
    "setBreakpoints",
    "setFunctionBreakpoints",
    "setDataBreakpoints",
    "setExceptionBreakpoints",
    "breakpointLocations",
    "dataBreakpointInfo",
    "loadedSources",
    "source",
    "locations",
    "cancel",
    "terminate",
    "restart",
    "pause",
    "native",
    "setVariable",
    "",
];

const KEYS: [&str; 34] = [
    "threadId",
    "frameId",
    "variablesReference",
    "targetId",
    "line",
    "column",
    "endLine",
    "start",
    "count",
    "startFrame",
    "levels",
    "granularity",
    "singleThread",
    "expression",
    "context",
    "text",
    "name",
    "source",
    "breakpoints",
    "filters",
    "filterOptions",
    "filterId",
    "dataId",
    "condition",
    "hitCondition",
    "logMessage",
    "path",
    "sourceReference",
    "journal",
    "test",
    "run",
    "stopAt",
    "locationReference",
    "linesStartAt1",
];

const TEXTS: [&str; 41] = [
    "",
    "repl",
    "hover",
    "instruction",
    "auditor.lag > 0",
    "auditor",
    "prices",
    "reply == \"lagged 1\"",
    "back",
    "forward 3",
    "goto 99999999999999999999",
    "rback lagging auditor",
    "rforward unread auditor 2",
    "hits actor ticker",
    "state",
    "list",
    "why",
    "native",
    "((((",
    "!!!!!!!!",
    "`",
    "\"",
    "{",
    "{}",
    "{auditor}{{{step}}}",
    "lagging 0 1",
    "unread 0 1 N",
    "closed 4294967296",
    "prices.send",
    "auditor.try_recv()",
    "..",
    ">= 2",
    "% 0",
    "3",
    "lost",
    "lagged",
    "closed",
    "/etc/passwd",
    "cause",
    "é\u{1}",
    "a.b.c.d",
];

struct Values<'a> {
    journal: &'a Path,
}

impl Values<'_> {
    fn number(random: &mut Random) -> Value {
        match random.below(8) {
            0 => json!(-1),
            1 => json!(0),
            2 => json!(u64::MAX),
            3 => json!(1.5),
            4 => json!(i64::MAX),
            _ => json!(random.below(12)),
        }
    }

    /// Returns a value that may fit a key, or not.
    fn value(&self, key: &str, depth: usize, random: &mut Random) -> Value {
        match (key, random.below(12)) {
            (_, 0) => Value::Null,
            (_, 1) => json!(random.below(2) == 0),
            (_, 2) => json!([Values::number(random), *random.of(&TEXTS)]),
            ("journal", 3..=9) => json!(self.journal),
            ("path", 3..=8) => json!(this_file()),
            ("source", 3..) if depth > 0 => {
                self.object(&["path", "sourceReference", "name"], depth - 1, random)
            }
            ("breakpoints" | "filterOptions", 3..) if depth > 0 => {
                let keys = [
                    "line",
                    "column",
                    "condition",
                    "hitCondition",
                    "logMessage",
                    "name",
                    "dataId",
                    "filterId",
                ];
                let count = random.below(4);
                (0..count)
                    .map(|_| self.object(&keys, depth - 1, random))
                    .collect()
            }
            ("filters", 3..) => json!([*random.of(&["lost", "lagged", "closed", "x"])]),
            (
                "threadId" | "frameId" | "variablesReference" | "targetId" | "line" | "count"
                | "start" | "levels",
                3..,
            ) => Values::number(random),
            (_, 3..=5) => Values::number(random),
            _ => json!(*random.of(&TEXTS)),
        }
    }

    fn object(&self, keys: &[&str], depth: usize, random: &mut Random) -> Value {
        let mut object = json!({});
        for key in keys {
            if random.below(3) > 0 {
                object[*key] = self.value(key, depth, random);
            }
        }
        object
    }

    fn request(&self, seq: usize, random: &mut Random) -> Value {
        let command = *random.of(&COMMANDS);
        // Those that a command needs are among all of them.
        let mut keys: Vec<_> = KEYS.into_iter().filter(|_| random.below(3) == 0).collect();
        keys.extend([
            "threadId",
            "expression",
            "breakpoints",
            "source",
            "line",
            "frameId",
            "variablesReference",
            "name",
            "text",
            "column",
        ]);
        let mut arguments = self.object(&keys, 2, random);
        if command == "launch" && random.below(4) > 0 {
            arguments = json!({"journal": self.journal});
        }
        // No test may be run.
        if let Some(arguments) = arguments.as_object_mut() {
            if !matches!(random.below(4), 0) {
                arguments.remove("test");
            }
        }
        match random.below(40) {
            0 => json!({"seq": seq, "type": "request", "arguments": arguments}),
            1 => json!({"seq": seq, "type": "request", "command": 7, "arguments": arguments}),
            2 => json!({"seq": seq, "type": "request", "command": command, "arguments": [1]}),
            3 => json!({"seq": seq, "type": "what", "command": command}),
            4 => json!([seq]),
            _ => json!({"seq": seq, "type": "request", "command": command, "arguments": arguments}),
        }
    }
}

/// Returns how many messages of the output are responses, and how many of these are right.
fn responses(mut output: &[u8]) -> (usize, usize) {
    let (mut all, mut right) = (0, 0);
    while !output.is_empty() {
        let (message, length) = first_message(output).expect("whole messages");
        output = &output[length..];
        if message["type"] == "response" {
            all += 1;
            right += usize::from(message["success"] == true);
            let said = message["message"].as_str().unwrap_or_default();
            assert!(message["success"] == true || !said.is_empty(), "{message}");
            assert!(!said.contains("has failed at this request"), "{message}");
        }
    }
    (all, right)
}

/// The files of a folder, with their contents.
fn contents(folder: &Path) -> Vec<(std::path::PathBuf, Vec<u8>)> {
    let files = fs::read_dir(folder)
        .unwrap()
        .map(|entry| entry.unwrap().path());
    let mut files: Vec<_> = files
        .map(|path| (path.clone(), fs::read(path).unwrap()))
        .collect();
    files.sort();
    files
}

#[test]
fn each_request_of_a_random_stream_has_a_response() {
    let folder = Folder::new();
    let (journal, _) = save_bus(&folder, "bus");
    let before = contents(&folder.0);
    let (mut asked, mut answered) = (0, 0);
    for seed in 1..=runs(500) {
        let mut random = Random::new(seed);
        let values = Values { journal: &journal };
        let mut stream = vec![];
        // Most streams begin as those of editors do.
        let launch = json!({"seq": 1, "type": "request", "command": "launch", "arguments": {"journal": journal}});
        let first = (random.below(8) > 0).then_some(launch);
        let count = 1 + random.below(24);
        let requests = (2..count + 2).map(|seq| values.request(seq, &mut random));
        let requests: Vec<_> = first.into_iter().chain(requests).collect();
        for request in &requests {
            let mut text = request.to_string().into_bytes();
            // Some are no JSON any more.
            if random.below(30) == 0 {
                let at = random.below(text.len());
                text[at] = random.below(256) as u8;
            }
            stream.extend(format!("Content-Length: {}\r\n\r\n", text.len()).into_bytes());
            stream.extend(text);
        }
        let mut output = vec![];
        assert!(serve(
            Cursor::new(stream),
            &mut output,
            Options { runs_tests: false }
        ));
        let (all, right) = responses(&output);
        // A byte that was changed may have made a request a response or an event, which have none,
        // but seldom.
        assert!(
            all <= requests.len() && all + 1 >= requests.len(),
            "seed {seed}: {all} responses to {}",
            requests.len()
        );
        asked += requests.len();
        answered += right;
    }
    assert!(
        answered * 5 > asked,
        "{answered} of {asked} requests were right"
    );
    assert_eq!(contents(&folder.0), before);
}

#[test]
fn streams_that_are_no_messages_end_with_a_fault() {
    for seed in 1..=runs(500) / 10 {
        let mut random = Random::new(seed);
        let count = random.below(200);
        let bytes: Vec<u8> = (0..count)
            .map(|_| *random.of(b"Content-Length: 12\r\n\r\n{}x\xff"))
            .collect();
        let mut output = vec![];
        let is_whole = serve(
            Cursor::new(bytes.clone()),
            &mut output,
            Options { runs_tests: false },
        );
        let (all, right) = responses(&output);
        assert_eq!(right, 0);
        assert!(is_whole || all > 0, "{:?}", String::from_utf8_lossy(&bytes));
    }
}
