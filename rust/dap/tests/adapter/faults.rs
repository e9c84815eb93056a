//! Journals, names and sources that aren't as they should be, and launches that are refused.

use crate::support::{Client, Folder, TICKER, save_bus, this_file};
use serde_json::{Value, json};
use std::fs;

/// Launches what can't be opened, and returns why.
fn refused(arguments: Value) -> String {
    let mut client = Client::new(false);
    client.ask("initialize", json!({}));
    client.refusal("launch", arguments)
}

/// Launches, and returns the warnings.
fn warned(arguments: Value) -> Vec<String> {
    let mut client = Client::new(false);
    client.launch(arguments);
    let events = client
        .events
        .iter()
        .filter(|event| event["body"]["category"] == "important");
    events
        .map(|event| event["body"]["output"].as_str().unwrap().to_string())
        .collect()
}

#[test]
fn journals_that_are_no_runs_are_refused_and_cut_off_ones_salvaged() {
    let folder = Folder::new();
    let (journal, _) = save_bus(&folder, "bus");
    let text = fs::read_to_string(&journal).unwrap();
    let missing = folder.path("missing.journal");
    let said = format!("{}: no such file; run the test first", missing.display());
    assert_eq!(refused(json!({"journal": missing})), said);
    let wrong = folder.path("wrong.journal");
    fs::write(&wrong, text.replace("= lagged 1", "= lagged 2")).unwrap();
    let said = format!(
        "{}, line 8: journal fault wrong-reply 8: it isn't the journal of a run",
        wrong.display()
    );
    assert_eq!(refused(json!({"journal": wrong})), said);
    let cut_off = folder.path("cut.journal");
    fs::write(&cut_off, &text[..text.len() - 12]).unwrap();
    let names = fs::read(journal.with_extension("names")).unwrap();
    fs::write(cut_off.with_extension("names"), &names).unwrap();
    let said = warned_of_all(json!({"journal": cut_off}));
    assert!(
        said.contains("cut.journal is truncated; the 8 calls of its whole lines are here\n"),
        "{said}"
    );
}

/// Launches, and returns all that is printed.
fn warned_of_all(arguments: Value) -> String {
    let mut client = Client::new(false);
    client.ask("initialize", json!({}));
    client.ask("launch", arguments);
    let outputs = client
        .events
        .iter()
        .filter(|event| event["event"] == "output");
    outputs
        .map(|event| event["body"]["output"].as_str().unwrap())
        .collect()
}

#[test]
fn names_that_do_not_fit_are_left_out_and_changed_sources_are_said() {
    let folder = Folder::new();
    let (journal, _) = save_bus(&folder, "bus");
    let names_path = journal.with_extension("names");
    let names = fs::read_to_string(&names_path).unwrap();
    let first = |said: String| said.lines().next().unwrap().to_string();
    assert!(warned_of_all(json!({"journal": journal})).starts_with("error: `auditor` lost"));
    let shown = names_path.display();
    for (changed, said) in [
        (
            names.replace("\"version\": 3", "\"version\": 9"),
            "its `version`: 9 is later than 5, the last one that this program reads",
        ),
        (
            with_checksum(&names, "journal"),
            "it has the names of another journal",
        ),
        (names.replacen('{', "[", 1), "line 2: `]` is missing"),
    ] {
        fs::write(&names_path, changed).unwrap();
        let said = format!("{shown} is left out: {said}");
        assert_eq!(first(warned_of_all(json!({"journal": journal}))), said);
    }
    fs::write(
        &names_path,
        with_checksum(&names, "tests/adapter/support/mod.rs"),
    )
    .unwrap();
    let said = first(warned_of_all(json!({"journal": journal})));
    assert!(
        said.ends_with("tests/adapter/support/mod.rs has changed since the run: lines may be off"),
        "{said}"
    );
    fs::write(
        &names_path,
        names.replace("support/mod.rs", "support/gone.rs"),
    )
    .unwrap();
    let said = first(warned_of_all(json!({"journal": journal})));
    assert!(
        said.ends_with(
            "tests/adapter/support/gone.rs isn't found: give the folder that it is in as `root`"
        ),
        "{said}"
    );
    fs::remove_file(&names_path).unwrap();
    let said = format!("{shown} isn't there: calls have no lines and no names");
    assert_eq!(first(warned_of_all(json!({"journal": journal}))), said);
}

/// Returns names with another checksum at a key.
fn with_checksum(names: &str, key: &str) -> String {
    let start = names.find(&format!("{key}\": \"")).unwrap() + key.len() + 4;
    format!(
        "{}0123456789abcdef{}",
        &names[..start],
        &names[start + 16..]
    )
}

#[test]
fn a_source_that_is_missing_has_a_text_of_its_calls() {
    let folder = Folder::new();
    let (journal, lines) = save_bus(&folder, "bus");
    let names_path = journal.with_extension("names");
    let names = fs::read_to_string(&names_path).unwrap();
    fs::write(
        &names_path,
        names.replace("support/mod.rs", "support/gone.rs"),
    )
    .unwrap();
    let mut client = Client::new(false);
    client.launch(json!({"journal": journal}));
    let source = client.frames(TICKER)[0]["source"].clone();
    let reference = source["sourceReference"].as_u64().unwrap();
    let text = client.ask(
        "source",
        json!({"source": source, "sourceReference": reference}),
    );
    let line = text["content"]
        .as_str()
        .unwrap()
        .lines()
        .nth(lines.send as usize - 1)
        .unwrap()
        .to_string();
    assert_eq!(line, "prices.send(..); // calls: 3");
    let set = client.ask(
        "setBreakpoints",
        json!({"source": source, "breakpoints": [{"line": lines.recv}]}),
    );
    assert_eq!(set["breakpoints"][0]["verified"], true);
    // A folder can be put in its place.
    let (from, to) = (
        "tests/adapter/support/gone.rs",
        "tests/adapter/support/mod.rs",
    );
    let _ = warned(json!({"journal": journal}));
    let mut client = Client::new(false);
    let prefix = file_of(&names).replace(to, from);
    client.launch(json!({"journal": journal, "sourceMap": {prefix: this_file()}}));
    assert_eq!(
        client.frames(TICKER)[0]["source"]["path"],
        json!(this_file())
    );
}

/// Returns the file of the calls, as the names have it.
fn file_of(names: &str) -> String {
    let end = names.find("support/mod.rs").unwrap() + "support/mod.rs".len();
    let start = names[..end].rfind('"').unwrap() + 1;
    names[start..end].to_string()
}

#[test]
fn nothing_is_answered_before_a_launch_and_no_test_is_run_for_a_port() {
    let mut client = Client::new(false);
    assert_eq!(
        client.refusal("threads", json!({})),
        "`threads` isn't answered before a launch"
    );
    client.ask("initialize", json!({}));
    let said = client.refusal("launch", json!({"test": "a_test"}));
    assert_eq!(
        said,
        "no test is run for a client of a port: start the adapter with `--run-tests`"
    );
    assert_eq!(
        client.refusal("launch", json!({"journal": 7})),
        "`journal` is no text"
    );
    assert_eq!(
        client.refusal("launch", json!([])),
        "the arguments are no object"
    );
    assert!(
        client
            .refusal("setVariable", json!({}))
            .starts_with("`setVariable` isn't answered")
    );
    client.ask("disconnect", json!({}));
    assert!(client.end());
}

#[test]
fn the_newest_journal_is_found_by_the_name_of_its_test() {
    let folder = Folder::new();
    let below = folder.path("target/yovanelum/shop/test-orders");
    fs::create_dir_all(&below).unwrap();
    for (age, name, channels) in [
        (3, "old", "broadcast 2"),
        (2, "whole", "watch 0"),
        (1, "late", "watch 0\nbroadcast 4"),
    ] {
        let journal = below.join(format!("{name}.journal"));
        fs::write(&journal, format!("ttd-journal 2\n{channels}\nsteps\nend\n")).unwrap();
        let test = if name == "late" {
            "another"
        } else {
            "audit_is_whole"
        };
        let names = format!(
            r#"{{"version": 3, "test": {{"package": "shop", "target": "orders", "name": "{name}", "thread": "tests::{test}"}}}}"#
        );
        fs::write(journal.with_extension("names"), names).unwrap();
        let time = std::time::SystemTime::now() - std::time::Duration::from_secs(100 * age);
        let file = fs::File::options().write(true).open(&journal).unwrap();
        file.set_modified(time).unwrap();
    }
    let state = |mut arguments: Value| {
        let mut client = Client::new(false);
        arguments["env"] = json!({"CARGO_TARGET_DIR": folder.path("target")});
        client.launch(arguments);
        let state = client.console("state");
        let mut kinds = state.lines().filter(|line| line.starts_with("channel"));
        (
            kinds.next().unwrap().split(' ').nth(2).unwrap().to_string(),
            kinds.count(),
        )
    };
    let of_test = json!({"cwd": folder.0, "test": "audit_is_whole", "run": false});
    assert_eq!(state(of_test), ("watch".to_string(), 0));
    assert_eq!(
        state(json!({"cwd": folder.0, "test": "tests::audit_is_whole", "run": false})).1,
        0
    );
    assert_eq!(
        state(json!({"cwd": folder.0, "test": "old", "run": false})).0,
        "broadcast"
    );
    assert_eq!(state(json!({"cwd": folder.0})), ("watch".to_string(), 1));
    let env = json!({"CARGO_TARGET_DIR": folder.path("target")});
    let said = refused(json!({"cwd": folder.0, "test": "whole_audit", "run": false, "env": env}));
    let wanted = format!(
        "there is no journal of a test `whole_audit` in {}: run the test first",
        folder.path("target/yovanelum").display()
    );
    assert_eq!(said, wanted);
}
