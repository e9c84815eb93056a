//! The fields that the protocol asks for, by the specification: of responses and of events.

use serde_json::Value;

/// The members that the items of an answer have to have, by the command and the key of the list. An
/// answer without a list has its own members.
const OF_ANSWERS: [(&str, &str, &[&str]); 17] = [
    ("threads", "threads", &["id", "name"]),
    (
        "stackTrace",
        "stackFrames",
        &["id", "name", "line", "column"],
    ),
    (
        "scopes",
        "scopes",
        &["name", "variablesReference", "expensive"],
    ),
    (
        "variables",
        "variables",
        &["name", "value", "variablesReference"],
    ),
    ("evaluate", "", &["result", "variablesReference"]),
    ("completions", "targets", &["label"]),
    ("stepInTargets", "targets", &["id", "label"]),
    ("gotoTargets", "targets", &["id", "label", "line"]),
    ("setBreakpoints", "breakpoints", &["verified"]),
    ("setFunctionBreakpoints", "breakpoints", &["verified"]),
    ("setDataBreakpoints", "breakpoints", &["verified"]),
    ("setExceptionBreakpoints", "breakpoints", &["verified"]),
    ("breakpointLocations", "breakpoints", &["line"]),
    ("dataBreakpointInfo", "", &["dataId", "description"]),
    ("exceptionInfo", "", &["exceptionId", "breakMode"]),
    ("loadedSources", "sources", &["name"]),
    ("source", "", &["content"]),
];

const OF_EVENTS: [(&str, &[&str]); 8] = [
    ("initialized", &[]),
    ("terminated", &[]),
    ("stopped", &["reason", "threadId", "allThreadsStopped"]),
    ("thread", &["reason", "threadId"]),
    ("output", &["output"]),
    ("breakpoint", &["reason", "breakpoint"]),
    ("progressStart", &["progressId", "title"]),
    ("progressEnd", &["progressId"]),
];

fn has_all(value: &Value, keys: &[&str]) {
    for key in keys {
        assert!(value.get(key).is_some(), "no {key} in {value}");
    }
}

/// Checks a response to a command.
pub fn check_response(command: &str, response: &Value) {
    assert_eq!(
        (&response["type"], &response["command"]),
        (&"response".into(), &command.into())
    );
    if response["success"] == false {
        // The short text that a program reads, and the one for users.
        has_all(&response["body"]["error"], &["id", "format", "showUser"]);
        assert!(response["message"].is_string(), "{response}");
        return;
    }
    assert_eq!(response["success"], true);
    for (_, key, members) in OF_ANSWERS.iter().filter(|(of, ..)| *of == command) {
        let body = &response["body"];
        match *key {
            "" => has_all(body, members),
            key => {
                let items = body[key]
                    .as_array()
                    .unwrap_or_else(|| panic!("no {key} in {body}"));
                items.iter().for_each(|item| has_all(item, members));
            }
        }
    }
}

/// Checks an event.
pub fn check_event(event: &Value) {
    let name = event["event"].as_str().unwrap();
    let known = OF_EVENTS.iter().find(|(known, _)| *known == name);
    let (_, members) = known.unwrap_or_else(|| panic!("no event {name}"));
    has_all(&event["body"], members);
}
