//! What is typed in the console and what an editor asks by itself.

use crate::support::launched;
use serde_json::{Value, json};

#[test]
fn only_what_the_user_typed_is_shown_as_an_error() {
    let (_folder, mut client, _) = launched(json!({}));
    // Each identifier that the mouse is over is asked for, most of which the run doesn't know.
    for (context, is_shown) in [
        (json!("hover"), false),
        (json!("watch"), false),
        (json!("variables"), false),
        (json!("clipboard"), false),
        (json!("repl"), true),
        (Value::Null, true),
    ] {
        let given = json!({"expression": "Vec", "context": context});
        let response = client.respond("evaluate", given);
        assert_eq!(response["success"], false);
        assert_eq!(response["message"], "there is no `Vec` in this run");
        assert_eq!(response["body"]["error"]["showUser"], is_shown, "{context}");
    }
    let hover = json!({"expression": "auditor.lag", "context": "hover"});
    assert_eq!(client.ask("evaluate", hover)["result"], "1");
    let response = client.respond("next", json!({"threadId": 99}));
    assert_eq!(response["body"]["error"]["showUser"], true);
}

#[test]
fn the_state_is_one_line_of_json_where_that_is_asked() {
    let (_folder, mut client, _) = launched(json!({}));
    let wanted = "{\"channels\":[{\"capacity\":2,\"closed\":false,\"kind\":\"broadcast\",\"made\":2,\"queued\":2,\
        \"receivers\":[{\"handle\":1,\"lag\":1,\"position\":0,\"unread\":3}],\"senders\":[0],\"sent\":3,\"window\":[1,2]}],\
        \"len\":9,\"place\":3}";
    assert_eq!(client.console("state json"), wanted);
    assert_eq!(client.console("state  json"), wanted);
}

#[test]
fn quit_ends_the_session_and_blank_lines_print_nothing() {
    let (_folder, mut client, _) = launched(json!({}));
    for text in ["", "  ", "# a comment", "#"] {
        assert_eq!(client.console(text), "");
    }
    assert!(client.console("help").contains("\nquit "));
    assert_eq!(client.console("quit"), "");
    client.event("terminated");
    let given = json!({"expression": "state", "context": "repl"});
    assert_eq!(
        client.refusal("evaluate", given),
        "`evaluate` isn't answered after the end of the session"
    );
    client.ask("disconnect", json!({}));
    assert!(client.end());
}

#[test]
fn data_that_the_run_has_not_are_not_watched() {
    let (_folder, mut client, _) = launched(json!({}));
    for (id, said) in [
        (
            "closed 1",
            Some("this run has nothing that `closed 1` is of"),
        ),
        (
            "lagging 0 2",
            Some("this run has nothing that `lagging 0 2` is of"),
        ),
        (
            "lagging 7 1",
            Some("this run has nothing that `lagging 7 1` is of"),
        ),
        // It is a broadcast.
        (
            "version 0 1",
            Some("this run has nothing that `version 0 1` is of"),
        ),
        (
            "unseen 0 1",
            Some("this run has nothing that `unseen 0 1` is of"),
        ),
        ("actor 0", Some("`actor 0` can't be watched")),
        ("channel 0", Some("`channel 0` can't be watched")),
        ("reply lagged", Some("`reply lagged` can't be watched")),
        ("sideways", Some("`sideways` can't be watched")),
        ("closed 0", None),
        ("lagging 0 1", None),
        ("unread 0 1 N", None),
        ("queue 0 2", None),
    ] {
        let set = json!({"breakpoints": [{"dataId": id}]});
        let set = client.ask("setDataBreakpoints", set)["breakpoints"][0].clone();
        assert_eq!(set["verified"], said.is_none(), "{id}");
        assert_eq!(set["message"].as_str(), said, "{id}");
    }
}
