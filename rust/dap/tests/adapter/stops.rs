//! Where a continue stops, what it prints on the way, and what of an earlier stop is answered
//! there.

use crate::support::{AUDITOR, Client, Folder, TICKER, launched, this_file};
use serde_json::{Value, json};
use yovanelum::{Recorder, block_on, broadcast, named};

/// Sets the breakpoints of the bus's sources, and returns their numbers.
fn set(client: &mut Client, breakpoints: Value) -> Vec<u64> {
    let source = json!({"path": this_file()});
    let given = json!({"source": source, "breakpoints": breakpoints});
    numbers(&client.ask("setBreakpoints", given))
}

fn numbers(answer: &Value) -> Vec<u64> {
    let all = answer["breakpoints"].as_array().unwrap().iter();
    let verified = all.inspect(|it| assert_eq!(it["verified"], true, "{it}"));
    verified.map(|it| it["id"].as_u64().unwrap()).collect()
}

/// Makes a move, and returns what it printed.
fn printed(client: &mut Client, command: &str) -> String {
    client.ask(command, json!({"threadId": TICKER}));
    let mut lines = String::new();
    loop {
        let event = client.next();
        match event["event"].as_str() {
            Some("output") => lines += event["body"]["output"].as_str().unwrap(),
            Some("stopped") => return lines,
            _ => panic!("{event}"),
        }
    }
}

#[test]
fn log_points_print_up_to_the_stop_and_no_further() {
    let (_folder, mut client, lines) = launched(json!({"stopAt": "start"}));
    set(
        &mut client,
        json!([
            {"line": lines.send, "logMessage": "{number}"},
            {"line": lines.send, "condition": "number == 2"},
        ]),
    );
    assert_eq!(printed(&mut client, "continue"), "1\n2\n");
    assert_eq!(client.console("number"), "2");
    assert_eq!(printed(&mut client, "continue"), "3\n");
    assert_eq!(client.console("number"), "9");
    assert_eq!(printed(&mut client, "reverseContinue"), "3\n2\n");
    assert_eq!(client.console("number"), "2");
    assert_eq!(printed(&mut client, "reverseContinue"), "1\n");
    assert_eq!(client.console("number"), "0");
}

#[test]
fn a_single_thread_passes_what_others_hit() {
    let (_folder, mut client, _lines) = launched(json!({"stopAt": "start"}));
    let drops = json!({"breakpoints": [{"name": "drop"}]});
    client.ask("setFunctionBreakpoints", drops);
    let single = |thread: u64| json!({"threadId": thread, "singleThread": true});
    // The ticker drops its sender in call 4, and the auditor its receiver in call 9.
    let stop = client.go("continue", single(AUDITOR));
    assert_eq!(
        (&stop["reason"], &stop["threadId"]),
        (&"function breakpoint".into(), &AUDITOR.into())
    );
    assert_eq!(client.console("number"), "9");
    let data = json!({"breakpoints": [{"dataId": "lagging 0 1"}]});
    client.ask("setDataBreakpoints", data);
    client.go("reverseContinue", single(TICKER));
    assert_eq!(client.console("number"), "4");
    // No hit of the auditor's is there, so it goes to the start.
    let stop = client.go("reverseContinue", single(AUDITOR));
    assert_eq!(stop["text"], "the start of the run");
    client.go("continue", json!({"threadId": AUDITOR}));
    assert_eq!(client.console("number"), "3");
}

#[test]
fn a_function_of_an_actor_has_all_calls_that_it_makes() {
    let folder = Folder::new();
    let recorder = Recorder::new();
    let _entered = recorder.enter();
    let (orders, mut audit) = broadcast::channel(4);
    let (reports, _read) = broadcast::channel(4);
    recorder.name(&reports, "auditor");
    orders.send(1).unwrap();
    // The receiver of the orders is called by its reader, and the channel of the reports is too.
    block_on(named("auditor", async {
        audit.recv().await.unwrap();
        orders.send(2).unwrap();
    }));
    reports.send(3).unwrap();
    let journal = folder.path("auditor.journal");
    recorder.save(&journal).unwrap();
    let mut client = Client::new(false);
    client.launch(json!({"journal": journal, "stopAt": "start"}));
    let sends = json!({"breakpoints": [{"name": "auditor.send"}]});
    numbers(&client.ask("setFunctionBreakpoints", sends));
    for place in ["3", "4"] {
        client.go("continue", json!({"threadId": TICKER}));
        assert_eq!(client.console("number"), place);
    }
}

#[test]
fn a_channel_without_a_name_is_called_by_its_place_as_in_the_report() {
    let folder = Folder::new();
    let recorder = Recorder::new();
    let entered = recorder.enter();
    let (orders, _audit) = broadcast::channel(4);
    let channel = format!("channel of {}:{}", file!(), line!() - 1);
    orders.send(1).unwrap();
    drop(entered);
    let journal = folder.path("orders.journal");
    recorder.save(&journal).unwrap();
    let mut client = Client::new(false);
    client.launch(json!({"journal": journal, "stopAt": "end"}));
    let frame = client.frames(TICKER)[0]["id"].clone();
    let scopes = client.ask("scopes", json!({"frameId": frame}));
    let scope = scopes["scopes"][1]["name"].as_str().unwrap().to_string();
    assert!(scope.starts_with(&channel), "{scope}, and not {channel}");
    // By its number too.
    for name in [&*channel, "channel 0"] {
        let send = format!("{name}.send");
        let sends = json!({"breakpoints": [{"name": send}]});
        numbers(&client.ask("setFunctionBreakpoints", sends));
    }
}

#[test]
fn a_step_of_an_instruction_goes_to_each_call() {
    let (_folder, mut client, _lines) = launched(json!({"stopAt": "start"}));
    let one = json!({"threadId": TICKER, "granularity": "instruction"});
    for place in (1..=9).chain([9]) {
        client.go("next", one.clone());
        assert_eq!(client.console("number"), place.to_string());
    }
    for place in (0..9).rev().chain([0]) {
        client.go("stepBack", one.clone());
        assert_eq!(client.console("number"), place.to_string());
    }
}

#[test]
fn of_many_calls_at_a_line_the_nearest_are_targets() {
    let folder = Folder::new();
    let recorder = Recorder::new();
    let entered = recorder.enter();
    let (orders, _audit) = broadcast::channel(4);
    let line = line!() + 2;
    for order in 1..=30 {
        orders.send(order).unwrap();
    }
    drop(entered);
    let journal = folder.path("orders.journal");
    recorder.save(&journal).unwrap();
    let package = std::env::var_os("CARGO_MANIFEST_DIR").unwrap();
    let source = json!({"path": std::path::Path::new(&package).join(file!())});
    for (place, first) in [("end", 11), ("start", 1)] {
        let mut client = Client::new(false);
        client.launch(json!({"journal": journal, "stopAt": place}));
        let targets = client.ask("gotoTargets", json!({"source": source, "line": line}));
        let targets = targets["targets"].as_array().unwrap().iter();
        let places: Vec<_> = targets.map(|it| it["id"].as_u64().unwrap()).collect();
        assert_eq!(places, (first..first + 20).collect::<Vec<_>>());
    }
}

#[test]
fn a_condition_of_two_parts_holds_where_both_hold() {
    let (_folder, mut client, _lines) = launched(json!({"stopAt": "end"}));
    let mut value = |text: &str| {
        let given = json!({"expression": text, "context": "watch"});
        client.ask("evaluate", given)["result"].clone()
    };
    assert_eq!(value("number > 1 || number > 2"), "true");
    assert_eq!(value("number > 1 || number > 99"), "true");
    assert_eq!(value("number > 98 || number > 99"), "false");
}

#[test]
fn a_word_is_completed_up_to_the_cursor() {
    let (_folder, mut client, _lines) = launched(json!({"stopAt": "end"}));
    let given = json!({"text": "rback laggx", "column": 11});
    let targets = client.ask("completions", given)["targets"].clone();
    assert_eq!(targets, json!([{"label": "lagging", "length": 4}]));
}

#[test]
fn what_is_left_to_receive_is_what_was_not_received() {
    let (_folder, mut client, _lines) = launched(json!({"stopAt": "start"}));
    // Call 5 is told that a value was lost, and the calls 6 and 7 receive the other two.
    for (place, left) in [(5, &["[0]", "[1]"][..]), (6, &["[0]"]), (7, &[])] {
        client.go("goto", json!({"threadId": AUDITOR, "targetId": place}));
        let frame = client.frames(AUDITOR)[0]["id"].clone();
        let scopes = client.ask("scopes", json!({"frameId": frame}));
        let open = |client: &mut Client, group: &Value| {
            let reference = &group["variablesReference"];
            let opened = client.ask("variables", json!({"variablesReference": reference}));
            opened["variables"].as_array().unwrap().clone()
        };
        let prices = open(&mut client, &scopes["scopes"][1]);
        let auditor = open(&mut client, &prices[0]);
        let mut fields = auditor.iter();
        let group = fields.find(|it| it["name"] == "to receive").unwrap();
        let values = match left {
            [] => vec![],
            _ => open(&mut client, group),
        };
        let names: Vec<_> = values
            .iter()
            .map(|it| it["name"].as_str().unwrap())
            .collect();
        assert_eq!(names, left, "at call {place}");
        let last = values.last().map(|it| it["value"].as_str().unwrap());
        assert!(last.is_none_or(|last| last == "\"103 EUR\""), "{values:?}");
    }
}

#[test]
fn frames_and_variables_are_of_one_stop() {
    let (_folder, mut client, _lines) = launched(json!({"stopAt": "cause"}));
    let frame = client.frames(TICKER)[0]["id"].clone();
    let scopes = client.ask("scopes", json!({"frameId": frame}));
    let group = scopes["scopes"][1]["variablesReference"].clone();
    client.ask("variables", json!({"variablesReference": group}));
    client.go("next", json!({"threadId": TICKER}));
    let refused = |client: &mut Client| {
        for (command, given, said) in [
            (
                "variables",
                json!({"variablesReference": group}),
                "there are no such variables at this stop",
            ),
            (
                "scopes",
                json!({"frameId": frame}),
                "there is no such frame at this stop",
            ),
            (
                "evaluate",
                json!({"expression": "auditor.lag", "frameId": frame}),
                "there is no such frame at this stop",
            ),
        ] {
            assert_eq!(client.refusal(command, given), said);
        }
    };
    refused(&mut client);
    // What is shown now has other numbers.
    let frame_now = client.frames(TICKER)[0]["id"].clone();
    client.ask("scopes", json!({"frameId": frame_now}));
    refused(&mut client);
}

#[test]
fn what_goes_wrong_at_a_breakpoint_is_told_as_an_exception() {
    let (_folder, mut client, lines) = launched(json!({"stopAt": "start"}));
    let line = set(&mut client, json!([{"line": lines.recv}]));
    let filters = json!({"filters": ["lagged"]});
    let filter = numbers(&client.ask("setExceptionBreakpoints", filters));
    let stop = client.go("continue", json!({"threadId": TICKER}));
    assert_eq!(client.console("number"), "5");
    assert_eq!(stop["reason"], "exception");
    let head = "`auditor` lost 1 of 3 values of `prices` (capacity 2)";
    assert_eq!(stop["description"], head);
    let mut hit: Vec<u64> = serde_json::from_value(stop["hitBreakpointIds"].clone()).unwrap();
    hit.sort_unstable();
    let mut wanted = [line, filter].concat();
    wanted.sort_unstable();
    assert_eq!(hit, wanted);
    // So is the send that overwrote a value, though data are watched there.
    let data = json!({"breakpoints": [{"dataId": "lagging 0 1"}]});
    client.ask("setDataBreakpoints", data);
    client.ask("setExceptionBreakpoints", json!({"filters": ["lost"]}));
    let stop = client.go("reverseContinue", json!({"threadId": TICKER}));
    assert_eq!(client.console("number"), "3");
    assert_eq!(
        (&stop["reason"], &stop["description"]),
        (&"exception".into(), &head.into())
    );
    client.go("next", json!({"threadId": AUDITOR}));
    // The next receive of the breakpoint's line goes well.
    let stop = client.go("continue", json!({"threadId": TICKER}));
    assert_eq!(
        (&stop["reason"], &stop["text"]),
        (&"breakpoint".into(), &Value::Null)
    );
}
