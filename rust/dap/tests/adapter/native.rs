//! The real call: the test is built, and the client is asked to start its own debugger on it.

use crate::support::{Client, Folder, save_bus};
use serde_json::{Value, json};
use std::fs;
use std::path::{Path, PathBuf};
use std::process::Command;

/// The test of a package whose name is that of the journal's. It prints what a replay would read.
const TEST: &str = r#"
#[ignore = "it takes long"]
#[test]
fn no_price_is_missing() {
    for name in ["YOVANELUM_REPLAY", "YOVANELUM_REPLAY_STOP", "CARGO_MANIFEST_DIR", "DESK"] {
        println!("{name}: {}", std::env::var(name).unwrap_or_default());
    }
}
"#;

/// Writes a package without dependencies, and a journal of its test.
fn package(folder: &Folder) -> PathBuf {
    let manifest =
        "[package]\nname = \"shop\"\nversion = \"0.0.0\"\nedition = \"2021\"\n[workspace]\n";
    fs::write(folder.path("Cargo.toml"), manifest).unwrap();
    for (name, text) in [("src", ""), ("tests", TEST)] {
        fs::create_dir(folder.path(name)).unwrap();
        let file = if name == "src" { "lib.rs" } else { "orders.rs" };
        fs::write(folder.path(name).join(file), text).unwrap();
    }
    let (journal, _) = save_bus(folder, "no_price_is_missing");
    of_test(&journal, "shop", "no_price_is_missing");
    journal
}

/// Has the names beside a journal say of which test it is.
fn of_test(journal: &Path, package: &str, thread: &str) {
    let path = journal.with_extension("names");
    let mut names: Value = serde_json::from_slice(&fs::read(&path).unwrap()).unwrap();
    names["test"] = json!({"package": package, "target": "orders", "name": "no_price_is_missing", "thread": thread});
    fs::write(path, names.to_string()).unwrap();
}

/// Launches a journal in a package, by a client that can start other debuggers, or can't.
fn launched(folder: &Folder, journal: &Path, debugger: Value, can_start: bool) -> Client {
    let mut client = Client::new(true);
    let able =
        json!({"supportsStartDebuggingRequest": can_start, "supportsProgressReporting": true});
    client.ask("initialize", able);
    let launch = json!({"journal": journal, "cwd": folder.0, "nativeDebugger": debugger, "env": {"DESK": "a b"}});
    client.ask("launch", launch);
    client.ask("configurationDone", json!({}));
    client.event("stopped");
    client
}

/// Waits for a message, and returns it.
fn until(client: &mut Client, is_it: impl Fn(&Value) -> bool) -> Value {
    let early = std::mem::take(&mut client.events).into_iter();
    let mut found = None;
    for event in early {
        found = found.or_else(|| is_it(&event).then_some(event));
    }
    let mut message = found.unwrap_or_else(|| client.next());
    while !is_it(&message) {
        message = client.next();
    }
    message
}

/// Waits for the request that starts a debugger, and returns its configuration.
fn configuration(client: &mut Client) -> Value {
    let request = until(client, |it| it["command"] == "startDebugging");
    assert_eq!(
        (&request["type"], &request["arguments"]["request"]),
        (&"request".into(), &"launch".into())
    );
    request["arguments"]["configuration"].clone()
}

/// Waits for an important line that has this in it, and returns it.
fn important(client: &mut Client, part: &str) -> String {
    let event = until(client, |it| {
        let said = it["body"]["output"].as_str().unwrap_or_default();
        it["body"]["category"] == "important" && said.contains(part)
    });
    event["body"]["output"].as_str().unwrap().to_string()
}

#[test]
fn the_client_starts_its_own_debugger_before_the_call() {
    let folder = Folder::new();
    let journal = package(&folder);
    let mut client = launched(&folder, &journal, Value::Null, true);
    let said = client.console("native");
    assert_eq!(
        said,
        "the test is built, to stop before call 3 in a native debugger"
    );
    assert_eq!(
        client.event("progressStart")["title"],
        "building the test, to stop before call 3"
    );
    let started = configuration(&mut client);
    assert_eq!(started["type"], "lldb");
    assert_eq!(started["name"], "no_price_is_missing before call 3");
    assert_eq!(
        started["args"],
        json!([
            "no_price_is_missing",
            "--exact",
            "--include-ignored",
            "--nocapture"
        ])
    );
    // It is the program of the test, with the variables of the launch and of the replay.
    let words = started["args"].as_array().unwrap().iter();
    let variables = started["env"].as_object().unwrap().iter();
    let ran = Command::new(started["program"].as_str().unwrap())
        .args(words.map(|word| word.as_str().unwrap()))
        .current_dir(started["cwd"].as_str().unwrap())
        .envs(variables.map(|(name, value)| (name, value.as_str().unwrap())))
        .output()
        .unwrap();
    let said = String::from_utf8(ran.stdout).unwrap();
    for (name, value) in [
        ("YOVANELUM_REPLAY", journal.to_str().unwrap()),
        ("YOVANELUM_REPLAY_STOP", "3"),
        ("CARGO_MANIFEST_DIR", folder.0.to_str().unwrap()),
        ("DESK", "a b"),
    ] {
        assert!(said.contains(&format!("{name}: {value}\n")), "{said}");
    }
    // A client that can't says why, and the session goes on.
    let response = json!({"seq": 90, "type": "response", "request_seq": 1, "command": "startDebugging", "success": false, "message": "no debugger lldb"});
    client.send(&response);
    let said = important(&mut client, "the editor didn't start");
    assert!(said.contains("no debugger lldb"), "{said}");
    // An earlier frame has its own call, and the menu of targets has the call of the place.
    let frames = client.frames(1);
    client.ask("native", json!({"frameId": frames[1]["id"]}));
    let of_frame = configuration(&mut client);
    assert_eq!(of_frame["env"]["YOVANELUM_REPLAY_STOP"], "2");
    let targets = client.ask("stepInTargets", json!({"frameId": frames[0]["id"]}));
    let last = targets["targets"]
        .as_array()
        .unwrap()
        .last()
        .unwrap()
        .clone();
    assert_eq!(last["label"], "the real call, in a native debugger");
    let stop = client.go("stepIn", json!({"threadId": 1, "targetId": last["id"]}));
    assert_eq!(stop["threadId"], 1);
    assert_eq!(
        configuration(&mut client)["env"]["YOVANELUM_REPLAY_STOP"],
        "3"
    );
}

#[test]
fn the_launch_says_which_debugger_is_started() {
    let folder = Folder::new();
    let journal = package(&folder);
    let mut client = launched(&folder, &journal, json!("cppdbg"), true);
    client.ask("native", json!({}));
    let started = configuration(&mut client);
    assert_eq!(started["type"], "cppdbg");
    let variables = started["environment"].as_array().unwrap();
    assert!(variables.contains(&json!({"name": "YOVANELUM_REPLAY_STOP", "value": "3"})));
    assert_eq!(started["env"], Value::Null);
    let own = json!({"type": "gdb", "stopAtBeginningOfMainSubprogram": true, "name": "mine"});
    let mut client = launched(&folder, &journal, own, true);
    client.ask("native", json!({}));
    let started = configuration(&mut client);
    assert_eq!(
        (&started["type"], &started["name"]),
        (&"gdb".into(), &"mine".into())
    );
    assert_eq!(started["stopAtBeginningOfMainSubprogram"], true);
    assert_eq!(started["env"]["YOVANELUM_REPLAY_STOP"], "3");
    let wrong = json!({"journal": journal, "nativeDebugger": 7});
    let said = client.refusal("launch", wrong);
    assert_eq!(
        said,
        "`nativeDebugger` is no type of a debugger, and no object"
    );
}

#[cfg(unix)]
#[test]
fn a_client_that_starts_no_debuggers_gets_a_command() {
    let folder = Folder::new();
    let journal = package(&folder);
    let mut client = launched(&folder, &journal, Value::Null, false);
    let frames = client.frames(1);
    let targets = client.ask("stepInTargets", json!({"frameId": frames[0]["id"]}));
    assert_eq!(targets["targets"].as_array().unwrap().len(), 1);
    client.console("native");
    let said = important(&mut client, "In a shell:");
    let command = said.lines().nth(1).unwrap();
    // The command runs the test where it starts a program that takes gdb's words.
    let script = folder.path("gdb");
    fs::write(&script, "#!/bin/sh\nshift\nexec \"$@\"\n").unwrap();
    let made = Command::new("chmod").arg("+x").arg(&script).status();
    assert!(made.unwrap().success());
    let path = format!("{}:{}", folder.0.display(), std::env::var("PATH").unwrap());
    let ran = Command::new("sh")
        .args(["-c", command])
        .env("PATH", path)
        .output();
    let said = String::from_utf8(ran.unwrap().stdout).unwrap();
    assert!(
        said.contains("YOVANELUM_REPLAY_STOP: 3\n"),
        "{command}: {said}"
    );
    assert!(said.contains("DESK: a b\n"), "{command}: {said}");
}

#[test]
fn what_can_not_be_built_is_said() {
    let folder = Folder::new();
    let journal = package(&folder);
    for (package, thread, part) in [
        ("shop", "--list", "don't say of which test it is"),
        ("shop", "", "don't say of which test it is"),
        (
            "another",
            "no_price_is_missing",
            "cargo built 0 programs of the tests of `orders`",
        ),
        (
            "-Zunstable-options",
            "no_price_is_missing",
            "don't say of which test it is",
        ),
    ] {
        of_test(&journal, package, thread);
        let mut client = launched(&folder, &journal, Value::Null, true);
        client.console("native");
        important(&mut client, part);
        client.console("start");
        let given = json!({"expression": "native", "context": "repl"});
        assert_eq!(client.refusal("evaluate", given), "no call was made yet");
    }
    // No client of a port has cargo run.
    let mut client = Client::new(false);
    client.launch(json!({"journal": journal}));
    client.console("native");
    important(&mut client, "start the adapter with `--run-tests`");
}
