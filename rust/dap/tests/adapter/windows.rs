//! Sessions on a window, of which the first calls lead to its beginning.

use crate::support::{AUDITOR, Client, Folder, TICKER};
use serde_json::{Value, json};
use std::fs;
use std::path::PathBuf;

/// Three calls lead to the window. The auditor has lost one value there, and will be told of two.
const JOURNAL: &str = "ttd-journal 2\nbroadcast 2\nsteps\n\
    1 63 0 send 0 0 = sent 1\n2 63 0 send 0 8 = sent 1\n3 63 0 send 0 9 = sent 1\n\
    67108866 0 0 send 0 10 = sent 1\n67108868 1 0 try-recv 1 = lagged 2\n\
    67108869 1 0 try-recv 1 = value 9\n67108870 0 0 subscribe 0 = new 2\n\
    67108871 0 0 send 0 11 = sent 2\nend\n";

const NAMES: &str = r#"{"version": 4, "actors": {"0": "ticker", "1": "auditor", "63": "before the window"},
    "channels": {"0": "prices"}, "window": {"trigger": "call", "reason": "asked", "at": null, "lead": 3,
    "channels": {"0": {"lead": 3, "calls": 900, "sent": 500, "handles": [0, 41, 77], "lags": {}}}}}"#;

fn save(folder: &Folder) -> PathBuf {
    let journal = folder.path("dump.journal");
    fs::write(&journal, JOURNAL).unwrap();
    fs::write(folder.path("dump.names"), NAMES).unwrap();
    journal
}

fn name(frame: &Value) -> &str {
    frame["name"].as_str().unwrap()
}

#[test]
fn a_session_begins_and_ends_behind_the_lead() {
    let folder = Folder::new();
    let mut client = Client::new(false);
    // The overwriting began before the window, so the call is shown that was told.
    let stop = client.launch(json!({"journal": save(&folder)}));
    assert_eq!(stop["threadId"], AUDITOR);
    assert_eq!(
        name(&client.frames(AUDITOR)[0]),
        "prices.try_recv() = lagged 2"
    );
    let threads = client.ask("threads", json!({}))["threads"].clone();
    let threads: Vec<_> = threads.as_array().unwrap().iter().map(name).collect();
    assert_eq!(threads, ["ticker", "auditor"]);
    // Back is the window's beginning, and there is nothing before it.
    let filters = json!({"filters": ["lost", "lagged"]});
    client.ask("setExceptionBreakpoints", filters);
    for command in ["stepBack", "stepBack", "reverseContinue"] {
        let stop = client.go(command, json!({"threadId": AUDITOR}));
        let said = "the beginning of the window: what was called before isn't known";
        assert_eq!(stop["description"], said, "{command}");
        for thread in [TICKER, AUDITOR] {
            let frames = client.frames(thread);
            assert_eq!((frames.len(), name(&frames[0])), (1, "before the window"));
        }
        assert_eq!(client.console("auditor.lag"), "1");
    }
    let step = json!({"threadId": TICKER, "granularity": "instruction"});
    client.go("stepBack", step.clone());
    client.go("next", step);
    assert_eq!(
        name(&client.frames(TICKER)[0]),
        "prices.send(value 10) = sent 1"
    );
}

#[test]
fn the_start_is_the_beginning_of_the_window_and_handles_have_their_numbers() {
    let folder = Folder::new();
    let mut client = Client::new(false);
    client.launch(json!({"journal": save(&folder), "stopAt": "start"}));
    assert_eq!(name(&client.frames(TICKER)[0]), "before the window");
    client.go("next", json!({"threadId": TICKER}));
    client.go("next", json!({"threadId": TICKER}));
    assert_eq!(
        name(&client.frames(TICKER)[0]),
        "prices.subscribe() = new 77"
    );
    let frame = client.frames(TICKER)[0]["id"].clone();
    let scopes = client.ask("scopes", json!({"frameId": frame}));
    let group = &scopes["scopes"][1]["variablesReference"];
    let variables = client.ask("variables", json!({"variablesReference": group}));
    let variables = variables["variables"].as_array().unwrap().iter();
    let names: Vec<_> = variables.map(name).take(2).map(String::from).collect();
    assert_eq!(names, ["auditor", "receiver 77"]);
}
