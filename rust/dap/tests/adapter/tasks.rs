//! What the task of a call's actor did, of names that are written by hand.

use crate::support::{AUDITOR, Client, Folder, TICKER, save_bus};
use serde_json::{Value, json};
use std::fs;

/// Returns the stamps of a journal's entries.
fn stamps(journal: &std::path::Path) -> Vec<u64> {
    let text = fs::read_to_string(journal).unwrap();
    let entries = text.lines().filter(|line| line.contains(" = "));
    let stamps = entries.map(|line| line.split(' ').next().unwrap().parse().unwrap());
    stamps.collect()
}

/// Returns the scope `Task` of a frame, as pairs of names and values, if there is one.
fn task_of(client: &mut Client, frame: &Value) -> Option<Vec<(String, String)>> {
    let scopes = client.ask("scopes", json!({"frameId": frame["id"]}));
    let mut scopes = scopes["scopes"].as_array().unwrap().iter();
    let group = scopes.find(|scope| scope["name"] == "Task")?["variablesReference"].clone();
    let variables = client.ask("variables", json!({"variablesReference": group}));
    let text = |value: &Value| value.as_str().unwrap().to_string();
    let variables = variables["variables"].as_array().unwrap().iter();
    Some(
        variables
            .map(|it| (text(&it["name"]), text(&it["value"])))
            .collect(),
    )
}

#[test]
fn the_task_of_a_call_is_a_scope_of_its_frame() {
    let folder = Folder::new();
    let (journal, _) = save_bus(&folder, "bus");
    let path = journal.with_extension("names");
    let mut names: Value = serde_json::from_slice(&fs::read(&path).unwrap()).unwrap();
    let actors = names["actors"].as_object().unwrap();
    let ticker = actors.iter().find(|(_, name)| *name == "ticker").unwrap().0;
    let ticker: u64 = ticker.parse().unwrap();
    // The ticker sent the first two prices, waited for a lock until the backup released it, and
    // sent the third one.
    let [first, second, third, ..] = stamps(&journal)[..] else {
        panic!("three sends");
    };
    names["version"] = 5.into();
    names["locations"] = json!([["src/db.rs", 40, 21], ["src/backup.rs", 39, 5]]);
    names["calls"] = json!({});
    names["made"] = json!({});
    names["tasks_seen"] = json!({
        "times": true, "now": 50_000,
        "places": [{"what": "Mutex::lock", "location": 0}, {"what": "", "location": 1}],
        "tasks": [
            {"name": "ticker", "actor": ticker, "over": true, "polls": [
                [0, 10, first - 1, second, 0, [0], 12_010, second, "task 1", 1, 0],
                [12_410, 12_430, second, third, 0, []]]},
            {"name": "backup", "polls": [[12_000, 12_020, second, second, 0, []]], "over": true},
        ],
    });
    fs::write(&path, names.to_string()).unwrap();
    let mut client = Client::new(false);
    client.launch(json!({"journal": journal}));
    let frames = client.frames(TICKER);
    let all = [
        ("from the start to call 2", "polled 10 us"),
        (
            "from call 2 to call 2",
            "waited 12 ms in Mutex::lock, src/db.rs:40; woken by backup, src/backup.rs:39",
        ),
        ("from call 2 to call 2", "ready 400 us"),
        ("from call 2 to call 3", "polled 20 us"),
    ];
    for (frame, now) in [(0, "polled 20 us"), (1, "polled 10 us")] {
        let wanted = [("task", "ticker"), ("now", now)].into_iter().chain(all);
        let wanted: Vec<_> = wanted
            .map(|(name, value)| (name.to_string(), value.to_string()))
            .collect();
        assert_eq!(task_of(&mut client, &frames[frame]), Some(wanted));
    }
    // Nothing was seen of the auditor, which is a thread.
    client.go("continue", json!({"threadId": AUDITOR}));
    let frames = client.frames(AUDITOR);
    assert_eq!(task_of(&mut client, &frames[0]), None);
    client.ask("disconnect", json!({}));
    assert!(client.end());
}
