//! The real call: a native debugger that the editor starts, once the test is built.

use super::{NOT_ALLOWED, Session};
use crate::Refusal;
use serde_json::{Value, json};
use std::io::Write;

/// The number by which a client knows the progress of a build.
pub(super) const PROGRESS: &str = "native";

impl<W: Write> Session<W> {
    /// Takes the answer to a request of the adapter's.
    pub(super) fn heed(&mut self, response: &Value) {
        let is_of = |command| response.get("command").and_then(Value::as_str) == Some(command);
        if is_of("startDebugging") && response.get("success") != Some(&true.into()) {
            let why = response.get("message").and_then(Value::as_str);
            let why = why.unwrap_or("it doesn't say why");
            let line = format!(
                "the editor didn't start its debugger: {why}. `nativeDebugger` of the launch says its type\n"
            );
            self.print("important", &line);
        }
    }

    /// Builds the test of the journal, to stop a native debugger before this call.
    pub(super) fn build_native(&mut self, call: u32) {
        let sender = self.inbox.sender();
        let begun = match (&mut self.native, self.options.runs_tests) {
            (Some(native), true) => native.build(call, &sender),
            (Some(_), false) => Err(Refusal::new(NOT_ALLOWED)),
            (None, _) => Err(Refusal::new("nothing was launched")),
        };
        match begun {
            Err(Refusal(fault)) => self.print("important", &format!("{fault}\n")),
            Ok(()) if self.has_progress => {
                let title = format!("building the test, to stop before call {call}");
                let body = json!({"progressId": PROGRESS, "title": title, "cancellable": true});
                self.event("progressStart", body);
            }
            Ok(()) => {}
        }
    }

    pub(super) fn end_build(&mut self) {
        if let Some(native) = &mut self.native {
            native.end();
        }
    }

    /// Has the editor start its own debugger on the test that was built, or says how to.
    pub(super) fn start_native(&mut self, messages: &[u8]) {
        if self.has_progress {
            self.event("progressEnd", json!({"progressId": PROGRESS}));
        }
        let Some(native) = &mut self.native else {
            return;
        };
        match native.built(messages) {
            Err(Refusal(fault)) => self.print("important", &format!("{fault}\n")),
            Ok(start) if self.has_debuggers => {
                let configuration = native.configuration(&start);
                let arguments = json!({"configuration": configuration, "request": "launch"});
                self.send(
                    json!({"type": "request", "command": "startDebugging", "arguments": arguments}),
                );
            }
            Ok(start) => {
                let line = format!(
                    "this editor starts no other debugger for an adapter. In a shell:\n{}\n",
                    start.command()
                );
                self.print("important", &line);
            }
        }
    }
}
