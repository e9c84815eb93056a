//! A session with one client: requests in, and for each a response. Before a launch little is
//! answered.

mod real_call;
mod test_run;

use crate::arguments::Arguments;
use crate::breakpoints::FILTERS;
use crate::inbox::{Inbox, Incoming};
use crate::journal::Journal;
use crate::launch::{Launch, StopAt, absolute};
use crate::moves::{Debuggee, Left};
use crate::native::Native;
use crate::recording::Recording;
use crate::sources::{Bases, Sources};
use crate::{Answer, Refusal, message};
use serde_json::{Value, json};
use std::collections::BTreeSet;
use std::io::{Read, Write};
use std::panic::{AssertUnwindSafe, catch_unwind};
use test_run::Cancelled;

/// What a client may do.
#[derive(Clone, Copy)]
pub struct Options {
    /// Whether a launch may run `cargo test`.
    pub runs_tests: bool,
}

/// What is supported, as the answer to `initialize` has it.
const SUPPORTED: [&str; 21] = [
    "supportsConfigurationDoneRequest",
    "supportsFunctionBreakpoints",
    "supportsConditionalBreakpoints",
    "supportsHitConditionalBreakpoints",
    "supportsEvaluateForHovers",
    "supportsStepBack",
    "supportsRestartFrame",
    "supportsGotoTargetsRequest",
    "supportsStepInTargetsRequest",
    "supportsCompletionsRequest",
    "supportsExceptionFilterOptions",
    "supportsExceptionInfoRequest",
    "supportsTerminateRequest",
    "supportsRestartRequest",
    "supportsDelayedStackTraceLoading",
    "supportsLoadedSourcesRequest",
    "supportsLogPoints",
    "supportsDataBreakpoints",
    "supportsBreakpointLocationsRequest",
    "supportsSteppingGranularity",
    "supportsCancelRequest",
];

/// Why no test is run or built.
const NOT_ALLOWED: &str =
    "no test is run for a client of a port: start the adapter with `--run-tests`";

/// What the protocol has a response say to a request that is for a stop, where there is none yet.
const NOT_STOPPED: &str = "notStopped";

struct Session<W> {
    inbox: Inbox,
    output: W,
    options: Options,
    sent: u64,
    bases: Bases,
    has_progress: bool,
    /// Whether the client starts other debuggers.
    has_debuggers: bool,
    launched: Option<Value>,
    debuggee: Option<Debuggee>,
    native: Option<Native>,
    /// The number of the request that is answered now.
    answering: u64,
    /// The numbers of requests that were cancelled while they waited.
    cancelled: BTreeSet<u64>,
    /// What is left of the last run that was debugged and isn't any more.
    left: Left,
    /// The number of the last run of a test.
    run: u64,
    /// Whether what was launched has ended.
    has_ended: bool,
    is_over: bool,
}

/// Serves a client until it disconnects or its stream ends. Returns `false` if the stream had bytes
/// that are no message.
pub fn serve(input: impl Read + Send + 'static, output: impl Write, options: Options) -> bool {
    let mut session = Session {
        inbox: Inbox::over(input),
        output,
        options,
        sent: 0,
        bases: Bases { line: 1, column: 1 },
        has_progress: false,
        has_debuggers: false,
        launched: None,
        debuggee: None,
        native: None,
        answering: 0,
        cancelled: BTreeSet::new(),
        left: Left::default(),
        run: 0,
        has_ended: false,
        is_over: false,
    };
    let is_whole = session.run();
    session.end_build();
    is_whole
}

impl<W: Write> Session<W> {
    fn run(&mut self) -> bool {
        while !self.is_over {
            match self.inbox.next() {
                Incoming::Message(bytes) => self.receive(&bytes),
                Incoming::Line(_, line) => self.print("console", &line),
                Incoming::Ended(_) => {}
                Incoming::Built(messages) => self.start_native(&messages),
                Incoming::NoMore(None) => return true,
                Incoming::NoMore(Some(fault)) => {
                    self.respond(&Value::Null, Err(Refusal(fault.to_string())));
                    return false;
                }
            }
        }
        true
    }

    fn send(&mut self, mut message: Value) {
        self.sent += 1;
        message["seq"] = self.sent.into();
        // A client that is gone gets no answers, and the session ends.
        if message::write(&mut self.output, &message).is_err() {
            self.is_over = true;
        }
    }

    fn event(&mut self, event: &str, body: Value) {
        let mut message = json!({"type": "event", "event": event});
        if !body.is_null() {
            message["body"] = body;
        }
        self.send(message);
    }

    fn print(&mut self, category: &str, text: &str) {
        self.event("output", json!({"category": category, "output": text}));
    }

    /// Answers a message, and sends the events that come of it.
    fn receive(&mut self, bytes: &[u8]) {
        let request = match serde_json::from_slice::<Value>(bytes) {
            Ok(request) => request,
            Err(fault) => {
                return self.respond(
                    &Value::Null,
                    Err(Refusal(format!("a message is no JSON: {fault}"))),
                );
            }
        };
        match request.get("type").and_then(Value::as_str) {
            Some("response") => return self.heed(&request),
            Some("event") => return,
            Some("request") => {}
            _ => return self.respond(&request, Err(Refusal::new("a message is no request"))),
        }
        let answer = self.answer_or_cancel(&request);
        let is_right = answer.is_ok();
        self.respond(&request, answer);
        let command = request.get("command").and_then(Value::as_str);
        if is_right && matches!(command, Some("launch" | "attach")) {
            self.event("initialized", Value::Null);
        }
        if is_right && command == Some("terminate") {
            self.event("terminated", Value::Null);
        }
        let events = self
            .debuggee
            .as_mut()
            .map(|debuggee| std::mem::take(&mut debuggee.events));
        for (event, body) in events.unwrap_or_default() {
            self.event(event, body);
        }
        if self.debuggee.as_ref().is_some_and(|it| it.has_quit) {
            self.end_debuggee();
        }
        let wanted = self.debuggee.as_mut().and_then(|it| it.wanted.take());
        if let Some(call) = wanted {
            self.build_native(call);
        }
    }

    /// Answers a request, unless it was cancelled while it waited.
    fn answer_or_cancel(&mut self, request: &Value) -> Answer {
        self.answering = number_of(request);
        if self.cancelled.remove(&self.answering) {
            return Err(Refusal::cancelled());
        }
        let answer = catch_unwind(AssertUnwindSafe(|| self.answer(request)));
        answer.unwrap_or_else(|_| Err(Refusal::new("the adapter has failed at this request")))
    }

    fn respond(&mut self, request: &Value, answer: Answer) {
        let mut response = json!({
            "type": "response",
            "request_seq": number_of(request),
            "command": request.get("command").and_then(Value::as_str).unwrap_or_default(),
            "success": answer.is_ok(),
        });
        match answer {
            Ok(Value::Null) => {}
            Ok(body) => response["body"] = body,
            Err(Refusal(fault)) => {
                let is_shown = is_asked_by_user(request) && fault != Refusal::CANCELLED;
                response["body"] =
                    json!({"error": {"id": 1, "format": fault, "showUser": is_shown}});
                response["message"] = fault.into();
            }
        }
        self.send(response);
    }

    fn answer(&mut self, request: &Value) -> Answer {
        let command = request.get("command").and_then(Value::as_str);
        let command = command.ok_or_else(|| Refusal::new("a request has no command"))?;
        let given = Arguments::of(request.get("arguments").unwrap_or(&Value::Null))?;
        match command {
            "initialize" => self.initialize(given),
            "launch" | "attach" => self.launch(given),
            "restart" => self.restart(given),
            "cancel" => {
                if Cancelled::read(given)?.is_of_progress(real_call::PROGRESS) {
                    self.end_build();
                }
                Ok(Value::Null)
            }
            "terminate" => {
                self.end_debuggee();
                Ok(Value::Null)
            }
            "disconnect" => {
                self.is_over = true;
                Ok(Value::Null)
            }
            _ => match &mut self.debuggee {
                Some(debuggee) => debuggee.answer(command, given),
                None if self.has_ended => Err(Refusal(format!(
                    "`{command}` isn't answered after the end of the session"
                ))),
                None => Err(Refusal(format!(
                    "`{command}` isn't answered before a launch"
                ))),
            },
        }
    }

    /// Ends what is debugged. The session goes on, so that it can be launched again.
    fn end_debuggee(&mut self) {
        self.end_build();
        if let Some(debuggee) = self.debuggee.take() {
            self.left = debuggee.left();
            self.has_ended = true;
        }
    }

    fn initialize(&mut self, given: Arguments<'_>) -> Answer {
        let base = |key| Ok(u64::from(given.flag(key)?.unwrap_or(true)));
        self.bases = Bases {
            line: base("linesStartAt1")?,
            column: base("columnsStartAt1")?,
        };
        self.has_progress = given.flag("supportsProgressReporting")?.unwrap_or(false);
        let starts = given.flag("supportsStartDebuggingRequest")?;
        self.has_debuggers = starts.unwrap_or(false);
        let mut answer = json!({});
        for key in SUPPORTED {
            answer[key] = true.into();
        }
        let filters = FILTERS.iter().map(|filter| filter.listed());
        answer["exceptionBreakpointFilters"] = filters.collect();
        Ok(answer)
    }

    fn launch(&mut self, given: Arguments<'_>) -> Answer {
        let mut launch = Launch::read(given)?;
        if let Some(native) = &self.native {
            launch.patch = native.patch_in(&launch.folder);
        }
        let path = absolute(&self.journal_of(&mut launch)?);
        let journal = Journal::read(&path)?;
        let sources = Sources::new(launch.root.as_deref(), launch.replaced.clone(), &path);
        let (recording, warnings) = Recording::open(&journal, sources)?;
        for warning in warnings {
            self.print("important", &format!("{warning}\n"));
        }
        let last = recording.len();
        let place = match launch.stop_at {
            StopAt::Cause => recording.names.look() as u32,
            StopAt::Start => recording.first(),
            StopAt::End => last,
            StopAt::Call(call) => call,
        };
        if let Some(before) = self.debuggee.take() {
            self.left = before.left();
        }
        let mut debuggee = Debuggee::new(recording, self.bases, place.min(last), &self.left);
        debuggee.has_debuggers = self.has_debuggers;
        for line in debuggee.report_lines() {
            self.event("output", line);
        }
        self.debuggee = Some(debuggee);
        self.launched = Some(given.value().clone());
        self.has_ended = false;
        self.end_build();
        self.native = Some(Native::of(&journal, launch));
        Ok(Value::Null)
    }

    /// Opens what was launched again, by the client's latest arguments if it has some. A test is
    /// run again.
    fn restart(&mut self, given: Arguments<'_>) -> Answer {
        let launched = self.launched.clone();
        let launched = launched.ok_or_else(|| Refusal::new("nothing was launched"))?;
        let latest = given.object("arguments")?.value();
        let launched = if latest.is_null() {
            launched
        } else {
            latest.clone()
        };
        let answer = Arguments::of(&launched).and_then(|given| self.launch(given))?;
        let before = std::mem::take(&mut self.left.breakpoints);
        if let Some(debuggee) = &mut self.debuggee {
            debuggee.renew_breakpoints(before);
            debuggee.begin();
        }
        Ok(answer)
    }
}

/// Returns the number of a request.
fn number_of(request: &Value) -> u64 {
    request.get("seq").and_then(Value::as_u64).unwrap_or(0)
}

/// Whether the user has asked for what fails. An editor asks by itself for what the mouse is over,
/// and for each watch at each stop.
fn is_asked_by_user(request: &Value) -> bool {
    let context = request.get("arguments").and_then(|it| it.get("context"));
    let context = context.and_then(Value::as_str);
    request.get("command").and_then(Value::as_str) != Some("evaluate")
        || matches!(context, None | Some("repl"))
}

impl Debuggee {
    fn answer(&mut self, command: &str, given: Arguments<'_>) -> Answer {
        match (command, at_stop(command)) {
            ("configurationDone", _) if self.has_begun => {
                Err(Refusal::new("the configuration is done already"))
            }
            ("configurationDone", _) => {
                self.begin();
                Ok(Value::Null)
            }
            ("threads", _) => self.threads(),
            ("breakpointLocations", _) => self.recording.breakpoint_locations(given, self.bases),
            ("dataBreakpointInfo", _) => self.data_breakpoint_info(given),
            ("loadedSources", _) => self.loaded_sources(),
            ("source", _) => self.source(given),
            (_, Some(_)) if !self.has_begun => Err(Refusal::new(NOT_STOPPED)),
            (_, Some(answer)) => answer(self, given),
            _ => self
                .breakpoints
                .set(command, given, self.bases, &mut self.recording),
        }
    }
}

/// What answers a request that is for a stop, or `None` if it isn't.
fn at_stop(command: &str) -> Option<fn(&mut Debuggee, Arguments<'_>) -> Answer> {
    Some(match command {
        "stackTrace" => |it, given| it.stack_trace(given),
        "scopes" => |it, given| it.scopes(given),
        "variables" => |it, given| it.variables(given),
        "evaluate" => |it, given| it.evaluate(given),
        "completions" => |it, given| it.completions(given),
        "next" => |it, given| it.step(given, false),
        "stepBack" => |it, given| it.step(given, true),
        "stepIn" => |it, given| it.step_in(given),
        "stepInTargets" => |it, given| it.step_in_targets(given),
        "stepOut" => |it, given| it.step_out(given),
        "continue" => |it, given| it.run(given, false),
        "reverseContinue" => |it, given| it.run(given, true),
        "gotoTargets" => |it, given| it.goto_targets(given),
        "goto" => |it, given| it.goto(given),
        "restartFrame" => |it, given| it.restart_frame(given),
        "exceptionInfo" => |it, _| it.exception_info(),
        "locations" => |it, given| it.location(given),
        "native" => |it, given| it.debug_real_call(given),
        _ => return None,
    })
}
