//! What a client ends: a test that runs, a build, and requests that wait for them.

use crate::support::{Client, Folder, save_bus, this_file};
use serde_json::{Value, json};
use std::fs;

/// A test that runs until it is ended, once it has said so.
const ENDLESS: &str = "#[test]\nfn endless() {\n    println!(\"it runs\");\n    loop {\n        std::thread::park();\n    }\n}\n";

/// A program that ends when there is a file.
const WAITS: &str = "fn main() {\n    while !std::path::Path::new(\"go\").exists() {\n        \
    std::thread::sleep(std::time::Duration::from_millis(5));\n    }\n}\n";

fn package(folder: &Folder, files: &[(&str, &str)]) {
    let manifest =
        "[package]\nname = \"shop\"\nversion = \"0.0.0\"\nedition = \"2021\"\n[workspace]\n";
    for (name, text) in [("Cargo.toml", manifest), ("src/lib.rs", "")]
        .iter()
        .chain(files)
    {
        let path = folder.path(name);
        fs::create_dir_all(path.parent().unwrap()).unwrap();
        fs::write(path, text).unwrap();
    }
}

/// A folder of its own to build in, where nobody else holds cargo's lock.
fn env(folder: &Folder) -> Value {
    json!({"CARGO_TARGET_DIR": folder.path("target")})
}

fn send(client: &mut Client, seq: u64, command: &str, arguments: Value) {
    let request =
        json!({"seq": seq, "type": "request", "command": command, "arguments": arguments});
    client.send(&request);
}

/// Returns the next response, and drops the events before it.
fn response(client: &mut Client) -> (u64, String, Value) {
    let mut message = client.next();
    while message["type"] != "response" {
        message = client.next();
    }
    let seq = message["request_seq"].as_u64().unwrap();
    let said = if message["success"] == true {
        "done".to_string()
    } else {
        message["message"].as_str().unwrap().to_string()
    };
    (seq, said, message["body"].clone())
}

/// Launches the endless test as request 50, and waits until it runs.
fn launched(folder: &Folder) -> Client {
    let mut client = Client::new(true);
    client.ask("initialize", json!({"supportsProgressReporting": true}));
    send(
        &mut client,
        50,
        "launch",
        json!({"test": "endless", "cwd": folder.0, "env": env(folder)}),
    );
    loop {
        let message = client.next();
        assert_ne!(message["type"], "response", "{message}");
        let said = message["body"]["output"].as_str().unwrap_or_default();
        // The harness may have begun the line.
        if said.ends_with("it runs\n") {
            break;
        }
    }
    client
}

#[test]
fn a_launch_that_is_cancelled_says_so() {
    let folder = Folder::new();
    package(&folder, &[("tests/orders.rs", ENDLESS)]);
    for cancel in [
        json!({"requestId": 50}),
        json!({"progressId": "test"}),
        json!({}),
    ] {
        let mut client = launched(&folder);
        send(&mut client, 51, "cancel", cancel);
        let (seq, said, body) = response(&mut client);
        assert_eq!((seq, said.as_str()), (50, "cancelled"));
        // Nobody wants to read of what they did themselves.
        assert_eq!(body["error"]["showUser"], false);
        assert_eq!(response(&mut client).0, 51);
        send(&mut client, 52, "disconnect", json!({}));
        assert_eq!(response(&mut client).1, "done");
        assert!(client.end());
    }
}

#[test]
fn what_waits_for_a_test_can_be_cancelled_and_the_test_goes_on() {
    let folder = Folder::new();
    package(&folder, &[("tests/orders.rs", ENDLESS)]);
    let mut client = launched(&folder);
    send(&mut client, 51, "threads", json!({}));
    send(&mut client, 52, "loadedSources", json!({}));
    for (seq, cancel) in [
        (53, json!({"requestId": 51})),
        (54, json!({"progressId": "another"})),
        (55, json!({"requestId": 7})),
    ] {
        send(&mut client, seq, "cancel", cancel);
        let (answered, said, _) = response(&mut client);
        assert_eq!((answered, said.as_str()), (seq, "done"));
    }
    send(&mut client, 56, "terminate", json!({}));
    let answers: Vec<_> = (0..4).map(|_| response(&mut client)).collect();
    let answers: Vec<_> = answers
        .iter()
        .map(|(seq, said, _)| (*seq, said.as_str()))
        .collect();
    assert_eq!(
        answers,
        [
            (50, "the test was ended"),
            (51, "cancelled"),
            (52, "`loadedSources` isn't answered before a launch"),
            (56, "done"),
        ]
    );
}

#[test]
fn a_build_goes_on_where_something_else_is_cancelled() {
    let folder = Folder::new();
    package(
        &folder,
        &[("build.rs", WAITS), ("tests/orders.rs", ENDLESS)],
    );
    let (journal, _) = save_bus(&folder, "endless");
    let path = journal.with_extension("names");
    let mut names: Value = serde_json::from_slice(&fs::read(&path).unwrap()).unwrap();
    names["test"] =
        json!({"package": "shop", "target": "orders", "name": "endless", "thread": "endless"});
    fs::write(path, names.to_string()).unwrap();
    let mut client = Client::new(true);
    let able = json!({"supportsStartDebuggingRequest": true, "supportsProgressReporting": true});
    client.ask("initialize", able);
    client.ask(
        "launch",
        json!({"journal": journal, "cwd": folder.0, "env": env(&folder)}),
    );
    client.ask("configurationDone", json!({}));
    // An editor cancels hovers that it doesn't want any more.
    client.ask("native", json!({}));
    client.ask("cancel", json!({"requestId": 1}));
    client.ask("cancel", json!({"progressId": "another"}));
    fs::write(folder.path("go"), "").unwrap();
    loop {
        let message = client.next();
        assert!(message["body"]["category"] != "important", "{message}");
        if message["command"] == "startDebugging" {
            break;
        }
    }
    fs::remove_file(folder.path("go")).unwrap();
    fs::write(folder.path("build.rs"), format!("// Again.\n{WAITS}")).unwrap();
    client.ask("native", json!({}));
    client.ask("cancel", json!({"progressId": "native"}));
    let mut said = client.event("output");
    while said["category"] != "important" {
        said = client.event("output");
    }
    assert_eq!(said["output"], "the build was ended\n");
}

#[test]
fn a_restart_has_the_breakpoints_of_the_run_that_it_opens() {
    let folder = Folder::new();
    let (journal, lines) = save_bus(&folder, "bus");
    let text = fs::read_to_string(&journal).unwrap();
    let mut client = Client::new(false);
    client.launch(json!({"journal": journal, "stopAt": "start"}));
    let source = json!({"path": this_file()});
    let given =
        json!({"source": source, "breakpoints": [{"line": lines.send}, {"line": lines.recv}]});
    let set = client.ask("setBreakpoints", given)["breakpoints"].clone();
    let drops = json!({"breakpoints": [{"name": "drop"}, {"name": "closed"}]});
    client.ask("setFunctionBreakpoints", drops);
    // The run that is opened next ends behind the second send.
    let sends = text.find("\n3 ").unwrap();
    fs::write(&journal, format!("{}\nend\n", &text[..sends])).unwrap();
    let names = fs::read_to_string(journal.with_extension("names")).unwrap();
    let names = names.replace("\"journal\": ", "\"other\": ");
    fs::write(journal.with_extension("names"), names).unwrap();
    client.events.clear();
    client.ask("restart", json!({}));
    // It has no receives and no drops: the client gets their breakpoints as unverified.
    let mut changed = vec![];
    loop {
        let event = client.next();
        match event["event"].as_str().unwrap() {
            "breakpoint" => changed.push(event["body"].clone()),
            "stopped" => break,
            _ => {}
        }
    }
    let changed: Vec<_> = changed
        .iter()
        .map(|it| {
            (
                &it["reason"],
                &it["breakpoint"]["id"],
                &it["breakpoint"]["verified"],
            )
        })
        .collect();
    let gone = |id: u64| (json!("changed"), json!(id), json!(false));
    let wanted = [gone(3), gone(2)];
    let wanted: Vec<_> = wanted
        .iter()
        .map(|(reason, id, is)| (reason, id, is))
        .collect();
    assert_eq!(changed, wanted);
    let stop = client.go("continue", json!({"threadId": 1}));
    assert_eq!(stop["hitBreakpointIds"], json!([set[0]["id"]]));
    assert_eq!(client.console("number"), "1");
    client.go("continue", json!({"threadId": 1}));
    let stop = client.go("continue", json!({"threadId": 1}));
    assert_eq!(
        (client.console("number"), &stop["text"]),
        ("2".into(), &"the end of the run".into())
    );
    // A later one has a new number.
    let again = client.ask(
        "setFunctionBreakpoints",
        json!({"breakpoints": [{"name": "send"}]}),
    );
    assert_eq!(again["breakpoints"][0]["id"], 5);
}

#[test]
fn nothing_moves_before_the_configuration_and_after_the_end() {
    let folder = Folder::new();
    let (journal, _) = save_bus(&folder, "bus");
    let mut client = Client::new(false);
    client.ask("initialize", json!({}));
    client.ask("launch", json!({"journal": journal}));
    client.event("initialized");
    for command in ["next", "stackTrace", "evaluate", "reverseContinue"] {
        let said = client.refusal(command, json!({"threadId": 1, "expression": "back"}));
        assert_eq!(said, "notStopped", "{command}");
    }
    client.ask("configurationDone", json!({}));
    client.event("stopped");
    let said = client.refusal("configurationDone", json!({}));
    assert_eq!(said, "the configuration is done already");
    client.ask("terminate", json!({}));
    client.event("terminated");
    for command in ["next", "threads", "setBreakpoints", "configurationDone"] {
        assert_eq!(
            client.refusal(command, json!({"threadId": 1})),
            format!("`{command}` isn't answered after the end of the session")
        );
    }
    // It is opened again.
    client.ask("restart", json!({}));
    client.event("stopped");
    assert_eq!(client.console("back"), "place 2 of 9");
    assert_eq!(client.event("stopped")["reason"], "goto");
}
