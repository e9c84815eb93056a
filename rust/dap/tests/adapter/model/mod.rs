//! Random sessions beside a small model of the protocol and of the run. A failure says its seed.

mod expected;
mod fields;
mod requests;
mod run;

use crate::states::save;
use crate::support::{Client, Folder, Random, runs};
use expected::{Expected, Phase, Stop};
use requests::Request;
use run::Run;
use serde_json::{Value, json};
use std::collections::BTreeMap;
use std::path::{Path, PathBuf};

/// A session with what it has to answer.
struct Session {
    client: Client,
    expected: Expected,
    journal: PathBuf,
    /// How often each command was answered.
    answered: BTreeMap<String, u32>,
}

/// The events that are sent after a response, in their order.
type Events = Vec<(String, Value)>;

impl Session {
    fn new(journal: &Path) -> Session {
        Session {
            client: Client::new(false),
            expected: Expected::of(Run::read(journal)),
            journal: journal.to_path_buf(),
            answered: BTreeMap::new(),
        }
    }

    /// Sends a request. Returns its response, and the events before and after it.
    fn exchange(&mut self, command: &str, arguments: &Value) -> (Value, Events) {
        let response = self.client.respond(command, arguments.clone());
        fields::check_response(command, &response);
        // What is answered next comes behind all events of this.
        self.client.ask("cancel", json!({"progressId": "none"}));
        let events = std::mem::take(&mut self.client.events).into_iter();
        let events = events.map(|mut event| {
            assert_eq!(event["type"], "event", "{event}");
            fields::check_event(&event);
            let name = event["event"].as_str().unwrap().to_string();
            (name, event["body"].take())
        });
        (response, events.collect())
    }

    /// Makes a request, and compares what comes of it with what has to come.
    fn make(&mut self, request: &Request) {
        let (response, events) = self.exchange(&request.command, &request.arguments);
        let is_right = response["success"] == true;
        let why = format!(
            "{:?}: {request:?}: {response}, {events:?}",
            self.expected.phase
        );
        if let Some(said) = self.refusal_by_phase(&request.command) {
            assert!(!is_right && events.is_empty(), "{why}");
            assert!(
                response["message"].as_str().unwrap().contains(said),
                "{why}"
            );
            return;
        }
        if let Some(wanted) = request.is_right {
            assert_eq!(is_right, wanted, "{why}");
        }
        if is_right {
            *self.answered.entry(request.command.clone()).or_default() += 1;
        }
        self.follow(request, &response, events, &why);
    }

    /// Why a command isn't answered in this phase.
    fn refusal_by_phase(&self, command: &str) -> Option<&'static str> {
        let always = ["initialize", "launch", "terminate", "cancel"];
        let early = [
            "threads",
            "breakpointLocations",
            "dataBreakpointInfo",
            "loadedSources",
        ];
        match (self.expected.phase, command) {
            (_, command) if always.contains(&command) => None,
            (Phase::Begun, "restart") => Some("nothing was launched"),
            (_, "restart") => None,
            (Phase::Begun, _) => Some("isn't answered before a launch"),
            (Phase::Ended, _) => Some("isn't answered after the end"),
            (Phase::Stopped, "configurationDone") => Some("is done already"),
            (Phase::Stopped, _) | (_, "configurationDone" | "pause" | "setVariable") => None,
            (Phase::Launched, _) if command.starts_with("set") || early.contains(&command) => None,
            (Phase::Launched, _) => Some("notStopped"),
        }
    }

    /// Takes what a request has changed, and checks the events.
    fn follow(&mut self, request: &Request, response: &Value, events: Events, why: &str) {
        let is_right = response["success"] == true;
        let body = &response["body"];
        match request.command.as_str() {
            _ if !is_right => assert!(events.is_empty(), "{why}"),
            "launch" => self.launched(&events, why),
            "configurationDone" | "restart" => self.begun(&events, why),
            "terminate" => {
                assert_eq!(events, [("terminated".to_string(), Value::Null)], "{why}");
                self.ended();
            }
            "evaluate" if request.arguments["expression"] == "quit" => {
                assert_eq!(events, [("terminated".to_string(), Value::Null)], "{why}");
                self.ended();
            }
            _ => match request.stop(&self.expected) {
                Some(stop) => self.stopped(stop, &events, why),
                None => {
                    assert!(events.is_empty(), "{why}");
                    request.take(&mut self.expected, body, why);
                }
            },
        }
    }

    fn launched(&mut self, events: &Events, why: &str) {
        let (last, outputs) = events.split_last().unwrap();
        assert_eq!(last.0, "initialized", "{why}");
        assert!(outputs.iter().all(|(name, _)| name == "output"), "{why}");
        self.expected.leave();
        self.expected.points.clear();
        self.expected.phase = Phase::Launched;
    }

    fn ended(&mut self) {
        self.expected.leave();
        if self.expected.phase != Phase::Begun {
            self.expected.phase = Phase::Ended;
        }
    }

    /// Takes that a session has begun: each thread is told, and then the first stop.
    fn begun(&mut self, events: &Events, why: &str) {
        let told: Vec<_> = events.iter().filter(|(name, _)| name != "output").collect();
        let (last, threads) = told.split_last().unwrap();
        let threads: Vec<_> = threads
            .iter()
            .map(|(name, body)| (name.as_str(), &body["threadId"]))
            .collect();
        let wanted: Vec<_> = self
            .expected
            .run
            .actors
            .iter()
            .map(|actor| json!(actor + 1))
            .collect();
        let wanted: Vec<_> = wanted.iter().map(|thread| ("thread", thread)).collect();
        assert_eq!(threads, wanted, "{why}");
        self.expected.phase = Phase::Stopped;
        self.expected.place = self.expected.run.len();
        let stop = Stop::at(self.expected.run.len(), "entry");
        self.stopped(stop, &vec![(*last).clone()], why);
    }

    /// Checks a stop, and what log points have printed before it.
    fn stopped(&mut self, stop: Stop, events: &Events, why: &str) {
        let why = &format!("{why}, wanted {stop:?}");
        let (last, printed) = events.split_last().unwrap_or_else(|| panic!("{why}"));
        let printed: Vec<_> = printed
            .iter()
            .map(|(_, body)| body["output"].as_str().unwrap())
            .collect();
        let lines: Vec<_> = stop
            .printed
            .iter()
            .map(|place| format!("at {place}\n"))
            .collect();
        assert_eq!(printed, lines, "{why}");
        assert_eq!(last.0, "stopped", "{why}");
        let body = &last.1;
        assert!(stop.reasons.iter().any(|it| body["reason"] == *it), "{why}");
        let hit = body["hitBreakpointIds"].as_array().into_iter().flatten();
        assert_eq!(
            hit.map(|id| id.as_u64().unwrap())
                .collect::<std::collections::BTreeSet<_>>(),
            stop.hit,
            "{why}"
        );
        if stop.place > 0 {
            assert_eq!(
                body["threadId"],
                self.expected.run.call(stop.place).actor + 1,
                "{why}"
            );
        }
        self.expected.place = stop.place;
        self.expected.leave();
        let number = json!({"expression": "number", "context": "watch"});
        assert_eq!(
            self.client.ask("evaluate", number)["result"],
            stop.place.to_string(),
            "{why}"
        );
    }
}

/// How many requests a session has.
const REQUESTS: usize = 80;

/// What is sent in any session: each of these has to be answered at least once in some of them.
const COMMANDS: [&str; 27] = [
    "initialize",
    "launch",
    "configurationDone",
    "restart",
    "terminate",
    "cancel",
    "threads",
    "stackTrace",
    "scopes",
    "variables",
    "evaluate",
    "completions",
    "next",
    "stepBack",
    "stepOut",
    "continue",
    "reverseContinue",
    "gotoTargets",
    "goto",
    "restartFrame",
    "setBreakpoints",
    "setFunctionBreakpoints",
    "setDataBreakpoints",
    "setExceptionBreakpoints",
    "breakpointLocations",
    "dataBreakpointInfo",
    "loadedSources",
];

/// The seed of a session, which a failure says.
struct Seed(u64);

impl Drop for Seed {
    fn drop(&mut self) {
        if std::thread::panicking() {
            eprintln!("the session of seed {0}: YOVANELUM_SEED={0}", self.0);
        }
    }
}

/// Makes the session of a seed, and returns how often each command was answered.
fn session_of(seed: u64) -> BTreeMap<String, u32> {
    let _said = Seed(seed);
    let folder = Folder::new();
    let mut random = Random::new(seed);
    let mut session = Session::new(&save(&folder, seed));
    for _ in 0..REQUESTS {
        let request = requests::any(&session.expected, &session.journal, &mut random);
        session.make(&request);
    }
    session.client.ask("disconnect", json!({}));
    assert!(session.client.end());
    session.answered
}

#[test]
fn random_sessions_are_answered_as_the_model_says() {
    if let Ok(seed) = std::env::var("YOVANELUM_SEED") {
        session_of(seed.parse().unwrap());
        return;
    }
    let mut answered: BTreeMap<String, u32> = BTreeMap::new();
    for seed in 1..=runs(250) / 10 {
        for (command, count) in session_of(seed) {
            *answered.entry(command).or_default() += count;
        }
    }
    for command in COMMANDS {
        assert!(
            answered.contains_key(command),
            "{command} was never answered"
        );
    }
}
