//! Whole sessions: from the launch to the cause of a loss and back, and breakpoints of each kind.

use crate::support::{AUDITOR, Client, Folder, TICKER, launched, save_bus, this_file};
use serde_json::{Value, json};
use std::fs;

fn names(list: &Value) -> Vec<&str> {
    let items = list.as_array().unwrap().iter();
    items.map(|item| item["name"].as_str().unwrap()).collect()
}

/// Returns the value of a variable in a list of them.
fn value_of<'a>(variables: &'a Value, name: &str) -> &'a str {
    let mut variables = variables["variables"].as_array().unwrap().iter();
    let found = variables.find(|variable| variable["name"] == name);
    found.unwrap_or_else(|| panic!("no {name}"))["value"]
        .as_str()
        .unwrap()
}

#[test]
fn a_loss_is_followed_to_its_cause_and_back() {
    let folder = Folder::new();
    let (journal, lines) = save_bus(&folder, "bus");
    let mut client = Client::new(false);
    // The first stop is at the send that overwrote the first price.
    let stop = client.launch(json!({"journal": journal}));
    assert_eq!(
        (&stop["reason"], &stop["threadId"]),
        (&"entry".into(), &TICKER.into())
    );
    let threads = client.ask("threads", json!({}));
    assert_eq!(names(&threads["threads"]), ["ticker", "auditor"]);
    let frames = client.frames(TICKER);
    assert_eq!(
        names(&Value::from(frames.clone())),
        [
            "prices.send(\"103 EUR\") = sent 1",
            "call 2: prices.send(\"102 EUR\") = sent 1",
            "call 1: prices.send(\"101 EUR\") = sent 1",
        ]
    );
    assert_eq!(frames[0]["line"], lines.send);
    assert_eq!(frames[0]["source"]["path"], json!(this_file()));
    // The auditor has made no call yet. It is shown where it will make its first.
    let before = client.frames(AUDITOR);
    assert_eq!(
        names(&Value::from(before.clone())),
        ["before its first call"]
    );
    assert_eq!(before[0]["line"], lines.recv);
    assert_eq!(client.console("auditor.lag"), "1");
    // Step in follows the loss to the call that was told, and back.
    let filters = json!({"filters": ["lagged"]});
    client.ask("setExceptionBreakpoints", filters);
    let stop = client.go("continue", json!({"threadId": TICKER}));
    assert_eq!(
        (&stop["reason"], &stop["threadId"]),
        (&"exception".into(), &AUDITOR.into())
    );
    let info = client.ask("exceptionInfo", json!({"threadId": AUDITOR}));
    assert_eq!(info["exceptionId"], "lagged");
    let head = "`auditor` lost 1 of 3 values of `prices` (capacity 2)\n";
    assert!(
        info["description"].as_str().unwrap().starts_with(head),
        "{info}"
    );
    let frames = client.frames(AUDITOR);
    assert_eq!(
        (&frames[0]["name"], &frames[0]["line"]),
        (&"prices.try_recv() = lagged 1".into(), &lines.recv.into())
    );
    client.go("stepIn", json!({"threadId": AUDITOR}));
    assert_eq!(
        client.frames(TICKER)[0]["name"],
        "prices.send(\"103 EUR\") = sent 1"
    );
    // The price that was sent here is received by call 7.
    client.go("stepIn", json!({"threadId": TICKER}));
    assert_eq!(
        client.frames(AUDITOR)[0]["name"],
        "prices.try_recv() = value \"103 EUR\""
    );
    assert_eq!(
        client.console("step"),
        "#7 ".to_string() + &client_line(&journal, 7)
    );
    client.go("stepBack", json!({"threadId": AUDITOR}));
    assert_eq!(
        client.frames(AUDITOR)[0]["name"],
        "prices.try_recv() = value \"102 EUR\""
    );
    client.go("reverseContinue", json!({"threadId": AUDITOR}));
    assert_eq!(
        client.frames(AUDITOR)[0]["name"],
        "prices.try_recv() = lagged 1"
    );
    let stop = client.go("reverseContinue", json!({"threadId": AUDITOR}));
    assert_eq!(
        (&stop["reason"], &stop["text"]),
        (&"step".into(), &"the start of the run".into())
    );
    client.ask("disconnect", json!({}));
    assert!(client.end());
}

/// Returns an entry of a journal's text, from 1 on.
fn client_line(journal: &std::path::Path, place: usize) -> String {
    let text = fs::read_to_string(journal).unwrap();
    let mut entries = text.lines().filter(|line| line.contains(" = "));
    entries.nth(place - 1).unwrap().to_string()
}

#[test]
fn variables_are_those_of_the_frame_that_is_looked_at() {
    let (_folder, mut client, lines) = launched(json!({}));
    let frames = client.frames(TICKER);
    let scopes = client.ask("scopes", json!({"frameId": frames[0]["id"]}));
    assert_eq!(
        names(&scopes["scopes"]),
        ["Call 3", "prices after call 3", "What was found"]
    );
    let of = |scopes: &Value, index: usize| json!({"variablesReference": scopes["scopes"][index]["variablesReference"]});
    let call = client.ask("variables", of(&scopes, 0));
    assert_eq!(value_of(&call, "reply"), "sent 1");
    assert_eq!(value_of(&call, "text"), "103 EUR");
    let prices = client.ask("variables", of(&scopes, 1));
    assert_eq!(value_of(&prices, "auditor"), "unread 3, lag 1");
    assert_eq!(value_of(&prices, "queued"), "2");
    assert_eq!(value_of(&prices, "closed"), "false");
    let window = prices["variables"]
        .as_array()
        .unwrap()
        .iter()
        .find(|it| it["name"] == "window")
        .unwrap();
    let values = client.ask(
        "variables",
        json!({"variablesReference": window["variablesReference"]}),
    );
    assert_eq!(
        (value_of(&values, "[0]"), value_of(&values, "[1]")),
        ("\"102 EUR\"", "\"103 EUR\"")
    );
    let paged = json!({"variablesReference": window["variablesReference"], "start": 1, "count": 5});
    assert_eq!(names(&client.ask("variables", paged)["variables"]), ["[1]"]);
    let auditor = json!({"variablesReference": prices["variables"][0]["variablesReference"]});
    let auditor = client.ask("variables", auditor);
    assert_eq!(value_of(&auditor, "its next receive"), "lagged 1");
    assert_eq!(value_of(&auditor, "to receive"), "2 values");
    // An earlier call of the ticker shows the state then, and the place stays.
    let scopes = client.ask("scopes", json!({"frameId": frames[2]["id"]}));
    let prices = client.ask("variables", of(&scopes, 1));
    assert_eq!(value_of(&prices, "auditor"), "unread 1, lag 0");
    let hover =
        json!({"expression": "auditor.unread", "context": "hover", "frameId": frames[1]["id"]});
    assert_eq!(client.ask("evaluate", hover)["result"], "2");
    assert!(client.console("state").starts_with("place 3 of "));
    let made = client.ask(
        "locations",
        json!({"locationReference": prices["variables"][0]["declarationLocationReference"]}),
    );
    assert!(made["line"].as_u64().unwrap() < lines.send.into());
}

#[test]
fn breakpoints_of_each_kind_stop_in_both_directions() {
    let (_folder, mut client, lines) = launched(json!({"stopAt": "start"}));
    let source = json!({"path": this_file()});
    // A line without calls moves to the next that has some.
    let set = client.ask(
        "setBreakpoints",
        json!({"source": source, "breakpoints": [
            {"line": lines.send - 1, "condition": "auditor.unread >= 2", "hitCondition": "2"},
            {"line": 1_000_000},
            {"line": lines.recv, "condition": "auditor.unread >"},
            {"line": lines.recv, "logMessage": "{{{number}}: {call} -> {reply}, {auditor}"},
        ]}),
    );
    let set = &set["breakpoints"];
    assert_eq!(
        (&set[0]["verified"], &set[0]["line"]),
        (&true.into(), &lines.send.into())
    );
    assert_eq!(
        set[1]["message"],
        "no call of the run was made at this line or below it"
    );
    assert_eq!(set[2]["message"], "an expression is missing");
    let place = |client: &mut Client| {
        client.ask(
            "evaluate",
            json!({"expression": "number", "context": "watch"}),
        )["result"]
            .clone()
    };
    let stop = client.go("continue", json!({"threadId": TICKER}));
    assert_eq!(
        (&stop["reason"], &stop["hitBreakpointIds"]),
        (&"breakpoint".into(), &json!([set[0]["id"]]))
    );
    assert_eq!(place(&mut client), "3");
    let functions = json!({"breakpoints": [{"name": "prices.drop"}, {"name": "nobody.send"}, {"name": "auditor.recv"}]});
    let set = client.ask("setFunctionBreakpoints", functions);
    assert_eq!(set["breakpoints"][0]["verified"], true);
    assert_eq!(
        set["breakpoints"][1]["message"],
        "there is no `nobody` in this run"
    );
    assert_eq!(
        set["breakpoints"][2]["message"],
        "the run has no call of `auditor.recv`"
    );
    // The ticker drops its sender in call 4.
    let stop = client.go("continue", json!({"threadId": TICKER}));
    assert_eq!(
        (&stop["reason"], place(&mut client)),
        (&"function breakpoint".into(), "4".into())
    );
    client.ask("setFunctionBreakpoints", json!({"breakpoints": []}));
    client.ask(
        "setBreakpoints",
        json!({"source": source, "breakpoints": []}),
    );
    let stop = client.go("continue", json!({"threadId": TICKER}));
    assert_eq!(stop["text"], "the end of the run");
    assert_eq!(place(&mut client), "9");
    // A data breakpoint: where the auditor begins to lag.
    let frames = client.frames(AUDITOR);
    let scopes = client.ask("scopes", json!({"frameId": frames[1]["id"]}));
    let prices =
        json!({"variablesReference": scopes["scopes"][1]["variablesReference"], "name": "auditor"});
    let info = client.ask("dataBreakpointInfo", prices);
    assert_eq!(
        (&info["dataId"], &info["description"]),
        (&"lagging 0 1".into(), &"auditor begins to lag".into())
    );
    let info = client.ask("dataBreakpointInfo", json!({"name": "auditor.unread"}));
    let data = json!({"breakpoints": [{"dataId": "lagging 0 1"}, {"dataId": info["dataId"], "condition": "2"}, {"dataId": "x"}]});
    let set = client.ask("setDataBreakpoints", data);
    assert_eq!(set["breakpoints"][2]["message"], "`x` can't be watched");
    let stop = client.go("reverseContinue", json!({"threadId": AUDITOR}));
    assert_eq!(
        (&stop["reason"], place(&mut client)),
        (&"data breakpoint".into(), "3".into())
    );
    client.go("reverseContinue", json!({"threadId": AUDITOR}));
    assert_eq!(place(&mut client), "2");
    // The older word for the number of the call.
    let older = json!({"expression": "step", "context": "watch"});
    assert_eq!(client.ask("evaluate", older)["result"], "2");
}

#[test]
fn log_points_print_in_both_directions() {
    let (_folder, mut client, lines) = launched(json!({"stopAt": "start"}));
    client.ask(
        "setBreakpoints",
        json!({"source": {"path": this_file()}, "breakpoints": [
            {"line": lines.send, "logMessage": "{{{number}}}: {call} -> {reply}, {auditor}"},
        ]}),
    );
    let mut printed = |command: &str, wanted: [u64; 3]| {
        client.ask(command, json!({"threadId": TICKER}));
        for step in wanted {
            let line = client.event("output");
            let (unread, lag) = (step, step.saturating_sub(2));
            let price = 100 + step;
            let text = format!(
                "{{{step}}}: prices.send(\"{price} EUR\") -> sent 1, unread {unread}, lag {lag}\n"
            );
            assert_eq!(
                (&line["output"], &line["line"]),
                (&text.into(), &lines.send.into())
            );
        }
        client.event("stopped");
    };
    printed("continue", [1, 2, 3]);
    printed("reverseContinue", [3, 2, 1]);
}

#[test]
fn the_console_has_the_words_of_ttd_with_names() {
    let (_folder, mut client, lines) = launched(json!({}));
    assert_eq!(
        client.console("rback lagging auditor"),
        "no hit, place 3 of 9"
    );
    assert_eq!(client.console("end"), "place 9 of 9");
    assert_eq!(client.event("stopped")["reason"], "goto");
    assert_eq!(client.console("rback lagging auditor"), "hit 3 of 9");
    assert_eq!(client.console("rback lagging 0 1"), "no hit, place 3 of 9");
    assert_eq!(client.console("rforward reply lagged"), "hit 5 of 9");
    assert_eq!(
        client.console("hits actor ticker"),
        "4 of `actor 0` up to call 5"
    );
    assert_eq!(client.console("rback unread auditor 2"), "hit 2 of 9");
    assert_eq!(client.console("goto 10"), "out of range, place 2 of 9");
    assert_eq!(client.console("back 3"), "out of range, place 2 of 9");
    assert!(
        client
            .console("why")
            .starts_with("error: `auditor` lost 1 of 3 values of `prices` (capacity 2)\n")
    );
    assert_eq!(client.console("list").lines().count(), 9);
    for (wrong, said) in [
        ("rback late", "there is no condition `late`: see `help`"),
        ("sideways", "there is no `sideways` in this run"),
        ("auditor.size", "there is no `auditor.size` in this run"),
        ("auditor.lag > 0)", "`)` isn't expected there"),
    ] {
        let given = json!({"expression": wrong, "context": "repl"});
        assert_eq!(client.refusal("evaluate", given), said);
    }
    for (expression, value) in [
        ("auditor.lag > 0 || prices.queued == 2", "true"),
        ("!(auditor.unread = 2) && closed prices", "false"),
        ("reply == \"sent 1\"", "true"),
        ("actor ticker", "true"),
        ("lagging 0 1", "false"),
        ("channel0.receiver1.position", "0"),
    ] {
        assert_eq!(client.console(expression), value, "{expression}");
    }
    let long = json!({"expression": "1||".repeat(2_000_000) + "1", "context": "watch"});
    let said = client.refusal("evaluate", long);
    assert_eq!(said, "an expression has more than 4,096 bytes");
    let nested = "(".repeat(2000) + "1";
    let said = client.refusal("evaluate", json!({"expression": nested}));
    assert_eq!(said, "it is nested too deep");
    // As many as fit.
    assert_eq!(client.console(&("1||".repeat(1300) + "1")), "true");
    let targets = client.ask(
        "gotoTargets",
        json!({"source": {"path": this_file()}, "line": lines.send}),
    );
    assert_eq!(
        targets["targets"][2]["label"],
        "call 3: prices.send(\"103 EUR\") = sent 1"
    );
    client.go("goto", json!({"threadId": TICKER, "targetId": 3}));
    assert_eq!(client.console("prices.queued"), "2");
    let words = client.ask(
        "completions",
        json!({"text": "rback lagging au", "column": 17}),
    );
    assert_eq!(words["targets"][0]["label"], "auditor");
    let lines_of = json!({"source": {"path": this_file()}, "line": 1, "endLine": 1_000_000});
    let found = client.ask("breakpointLocations", lines_of);
    let found: Vec<_> = found["breakpoints"]
        .as_array()
        .unwrap()
        .iter()
        .map(|it| it["line"].as_u64().unwrap())
        .collect();
    assert_eq!(found, [u64::from(lines.send), lines.recv.into()]);
}

#[test]
fn lines_and_columns_may_count_from_zero() {
    let folder = Folder::new();
    let (journal, lines) = save_bus(&folder, "bus");
    let mut client = Client::new(false);
    client.ask(
        "initialize",
        json!({"linesStartAt1": false, "columnsStartAt1": false}),
    );
    client.ask("launch", json!({"journal": journal}));
    client.ask("configurationDone", json!({}));
    assert_eq!(client.frames(TICKER)[0]["line"], lines.send - 1);
    let set = client.ask(
        "setBreakpoints",
        json!({"source": {"path": this_file()}, "breakpoints": [{"line": lines.recv - 1}]}),
    );
    assert_eq!(
        (
            &set["breakpoints"][0]["verified"],
            &set["breakpoints"][0]["line"]
        ),
        (&true.into(), &(lines.recv - 1).into())
    );
}
