//! The account of runs that begin in a window, worked by hand from the format of the names and from
//! what a recorder keeps: what its lead has is none of the run.

use super::Account;
use super::tests::{account, assert_told, heads};
use crate::report::{Report, sarif};

/// The story of a night: a broadcast of 16 is sent 5,000,000 values, of which `audit` receives all
/// but the last 100. Its next receive tells it that 84 are lost. The last 20 calls are kept: 19
/// sends, and that receive. Before them 4,999,981 values were sent and 4,999,900 received.
///
/// The lead begins at the position of `audit`: 81 sends make up for those since its last receive.
/// It stands for the receiver with which the channel was opened in the journal, and there is a
/// sender, so nothing else is created.
fn night() -> Account {
    let mut entries = vec![];
    // An overwritten value isn't known, and a 0 stands for it. The last 16 are those that are
    // retained.
    entries.extend((0..65).map(|_| "63 0 send 0 0 = sent 1".to_string()));
    entries.extend((4_999_965..4_999_981).map(|it| format!("63 0 send 0 {it} = sent 1")));
    entries.extend((4_999_981..5_000_000).map(|it| format!("0 0 send 0 {it} = sent 1")));
    entries.push("1 0 try-recv 1 = lagged 84".to_string());
    let window = r#"{"trigger": "lag", "reason": "`audit` lost 84 values of `prices`", "at": 1795921965120, "lead": 81,
        "channels": {"0": {"lead": 81, "calls": 9999881, "sent": 4999981, "handles": [0, 2], "lags": {}}}}"#;
    let calls = vec!["null"; 81].join(", ") + &", 0".repeat(19) + ", 1";
    let names = format!(
        r#"{{"version": 4, "actors": {{"0": "ticker", "1": "night-audit", "63": "before the window"}},
        "channels": {{"0": "prices"}}, "handles": {{"0": {{"1": "audit"}}}},
        "locations": [["src/main.rs", 10, 5], ["src/main.rs", 20, 9]], "calls": {{"0": [{calls}]}},
        "times": [[82, 1795921961120, 17000000], [101, 1795921965120, 21000000]], "window": {window}}}"#
    );
    let entries: Vec<_> = entries.iter().map(String::as_str).collect();
    account(&["broadcast 16"], &entries, &names)
}

#[test]
fn a_loss_that_began_before_the_window_is_told_with_what_is_known() {
    let found = night();
    let wanted = [
        "`audit` lost 84 of at most 5000000 values of `prices` (capacity 16)",
        "  before the window   the overwriting began",
        "  call 101            told: lagged 84         night-audit  src/main.rs:20   its last receive: none in the window; at 03:12:45.120 UTC, at the dump",
        // 65 were overwritten before the window. Its 19 sends overwrote the 16 with which it
        // begins, and their own first 3.
        "  lost: 65 values, overwritten before the window; value 4999965, value 4999966, value 4999967, .. value 4999983",
    ];
    assert_eq!(found.facts.len(), 1);
    assert_eq!(found.facts[0].text(), wanted);
    let window = found.window.as_ref().unwrap();
    let wanted = "dump of 2026-11-29 03:12:45.120 UTC: `audit` lost 84 values of `prices`; calls 82 to 101; 1 to 81 lead to the window";
    assert_eq!(window.text, wanted);
    assert_eq!(found.unknown, ["9999881 calls came before the window"]);
    assert_eq!((found.look, found.nothing.as_ref()), (101, None));
}

/// Names with a window of a broadcast `bus` and a watch `state`, and these other keys.
fn names(lead: u64, bus: &str, state: &str, others: &str) -> String {
    format!(
        r#"{{"version": 4, "channels": {{"0": "bus", "1": "state"}}, {others}
        "window": {{"trigger": "call", "reason": "asked", "at": null, "lead": {lead}, "channels": {{"0": {{{bus}}}, "1": {{{state}}}}}}}}}"#
    )
}

const NEW_STATE: &str = r#""lead": 0, "calls": 0, "sent": null, "handles": [0, 1], "lags": {}"#;

#[test]
fn a_receiver_that_nobody_asks_has_lost_what_it_really_lagged_by() {
    // Three receivers are there: number 41 lags by 5,000,000, and the lead lets it lag by 1. Number
    // 77 has read all, and is dropped in the window. The first two handles of the journal, a
    // sender and number 41, stand for the handles 0 and 41.
    let entries = [
        "63 0 send 0 0 = sent 1",
        "63 0 send 0 7000000 = sent 1",
        "63 0 send 0 7000001 = sent 1",
        "63 0 subscribe 0 = new 2",
        "0 0 send 0 7000002 = sent 2",
        "0 0 subscribe 0 = new 3",
        "0 0 send 0 7000003 = sent 3",
        "1 0 recv 2 = value 7000002",
        "0 0 drop 2 = dropped",
        "0 0 send 0 7000004 = sent 2",
    ];
    let bus = r#""lead": 4, "calls": 12000000, "sent": 7000002, "handles": [0, 41, 77, 78], "lags": {"1": 5000000}"#;
    let names = names(4, bus, NEW_STATE, "");
    let found = account(&["broadcast 2", "watch 0"], &entries, &names);
    // Behind the lead, three sends overwrote three more values. The receiver that was created in
    // the window has two to read, and has lost none.
    let wanted = ["receiver 41 lost 5000003 of at most 7000005 values of `bus` (capacity 2)"];
    let below = [
        "  before the window   the overwriting began",
        "  the end             held, not read in the window",
        "  lost: 5000000 values, overwritten before the window; value 7000000, value 7000001, value 7000002",
    ];
    assert_told(&found, &wanted, 0, &below);
    assert_eq!((found.facts[0].order, found.look), (13, 5));
    let json = found.to_json();
    for part in [
        r#""calls": 6,"#,
        r#""name": "receiver 41", "lost": 5000003, "of": 7000005, "losses": 1, "end": "open", "at_most": true,"#,
        r#"{"place": 4, "role": "cause", "line": 1, "actor": null, "location": null}"#,
        r#"{"channel": 0, "receiver": 1, "from": 3, "to": null, "lost": 5000003, "end": "open"}"#,
        r#""text": "dump: asked; calls 5 to 10; 1 to 4 lead to the window"}"#,
        r#""lags": {"1": 5000000}}, "1""#,
    ] {
        assert!(json.contains(part), "{part} {json}");
    }
}

#[test]
fn what_the_lead_has_is_none_of_the_run() {
    // A receiver that stands for none is dropped in the lead, and has lost a value there; the
    // watch is closed there. Actor 63 made none of these calls.
    let entries = [
        "63 0 subscribe 0 = new 2",
        "63 0 send 0 0 = sent 2",
        "63 0 send 0 8 = sent 2",
        "63 0 subscribe 0 = new 3",
        "63 0 drop 1 = dropped",
        "63 0 drop 2 = dropped",
        "63 1 send 0 4 = stored",
        "63 1 drop 0 = dropped",
        "0 0 recv 3 = empty",
        "0 1 changed 1 = done",
        "0 1 changed 1 = closed",
    ];
    let entries = entries.map(|entry| entry.replace("recv 3", "try-recv 3"));
    let entries: Vec<_> = entries.iter().map(String::as_str).collect();
    let bus = r#""lead": 6, "calls": 1, "sent": 300, "handles": [0, null, null, 9], "lags": {}"#;
    let state = r#""lead": 2, "calls": 0, "sent": null, "handles": [0, 1], "lags": {}"#;
    let names = names(8, bus, state, "");
    let found = account(&["broadcast 1", "watch 0"], &entries, &names);
    assert_eq!(heads(&found), Vec::<&str>::new());
    assert_eq!(found.unknown, ["1 call came before the window"]);
    let nothing = "nothing was found in 3 calls on 2 channels";
    assert_eq!(found.nothing.as_deref(), Some(nothing));
    assert!(found.to_json().contains("\"losses\": [],"));
    assert_eq!((found.rest.text(), found.look), (None, 11));
}

#[test]
fn changes_of_the_lead_came_to_nobody() {
    // The lead raises the version once for the receivers 1 and 2, which haven't seen the value.
    // Receiver 1 looks at it and marks it, and never learns of the second of two changes. Receiver
    // 2 asks before both. Number 8 is created in the window.
    let entries = [
        "63 1 subscribe 0 = new 2",
        "63 1 send-replace 0 5 = old 5",
        "0 1 update 1 = value 5",
        "0 1 has-changed 2 = flag yes",
        "0 1 subscribe 0 = new 3",
        "0 1 send 0 6 = stored",
        "0 1 update 1 = value 6",
        "0 1 update 3 = value 6",
        "0 1 send 0 7 = stored",
        "0 1 borrow 3 = value 7",
    ];
    let state = r#""lead": 2, "calls": 90, "sent": null, "handles": [0, 4, 6, 8], "lags": {}"#;
    let bus = r#""lead": 0, "calls": 0, "sent": 0, "handles": [0, 1], "lags": {}"#;
    let names = names(2, bus, state, "");
    let found = account(&["broadcast 1", "watch 5"], &entries, &names);
    let wanted = [
        "receiver 6 never learned of 2 of 2 changes of `state` in the window",
        "receiver 4 never learned of 1 of 2 changes of `state` in the window",
    ];
    let below = [
        "  call 7   state.borrow_and_update()   actor 0  its last look: value 6",
        "  call 9   state.send(value 7)         actor 0  the last change",
    ];
    assert_told(&found, &wanted, 1, &below);
}

#[test]
fn a_change_of_the_lead_that_was_marked_by_no_look_is_marked() {
    // Receiver 2 marks what the lead has sent, by `mark_unchanged`. It looks at the one change of
    // the window, and doesn't mark it.
    let entries = [
        "63 1 subscribe 0 = new 2",
        "63 1 send-replace 0 5 = old 5",
        "0 1 update 1 = value 5",
        "0 1 mark-unchanged 2 = done",
        "0 1 has-changed 2 = flag no",
        "0 1 send 0 6 = stored",
        "0 1 update 1 = value 6",
        "0 1 borrow 2 = value 6",
    ];
    let state = r#""lead": 2, "calls": 90, "sent": null, "handles": [0, 4, 6], "lags": {}"#;
    let bus = r#""lead": 0, "calls": 0, "sent": 0, "handles": [0, 1], "lags": {}"#;
    let found = account(
        &["broadcast 1", "watch 5"],
        &entries,
        &names(2, bus, state, ""),
    );
    let wanted = "receiver 6 never marked 1 of 1 change of `state` as seen in the window";
    assert_eq!(heads(&found), [wanted]);
}

#[test]
fn what_failed_or_waits_since_before_the_window_is_so_at_its_beginning() {
    let entries = [
        "63 0 subscribe 0 = new 2",
        "63 0 drop 1 = dropped",
        "0 0 send 0 9 = sent 1",
        "0 0 send 0 10 = sent 1",
    ];
    let bus = r#""lead": 2, "calls": 8, "sent": 3, "handles": [0, null, 4], "lags": {}"#;
    let others = r#""panics": [{"text": "", "location": null, "actor": 2, "since": 0}],
        "waiting": [{"actor": 1, "channel": 0, "handle": 2, "call": "recv", "since": 0, "location": null},
            {"actor": 3, "channel": 0, "handle": 2, "call": "recv", "since": 3, "location": null}],"#;
    let names = names(2, bus, NEW_STATE, others);
    let found = account(&["broadcast 4", "watch 0"], &entries, &names);
    let waits: Vec<_> = found
        .waiting
        .iter()
        .map(|wait| wait.text.as_str())
        .collect();
    let wanted = [
        "actor 1 in `bus.recv` since before the window",
        "actor 3 in `bus.recv` since call 3",
    ];
    assert_eq!(waits, wanted);
    assert!(found.to_json().contains("\"failure\": 2,\n  \"look\": 3\n"));
}

#[test]
fn a_channel_that_is_there_from_its_opening_is_known_in_whole() {
    let entries = [
        "63 1 subscribe 0 = new 2",
        "0 0 send 0 1 = sent 1",
        "0 0 send 0 2 = sent 1",
        "0 0 drop 0 = dropped",
    ];
    let bus = r#""lead": 0, "calls": 0, "sent": 0, "handles": [0, 1], "lags": {}"#;
    let state = r#""lead": 1, "calls": 5, "sent": null, "handles": [0, 1, 3], "lags": {}"#;
    let names = names(1, bus, state, "");
    let found = account(&["broadcast 1", "watch 0"], &entries, &names);
    let wanted = [
        "receiver 1 lost 1 of 2 values of `bus` (capacity 1)",
        "`bus` closed, and its receiver has not read that far",
    ];
    let below = [
        "  call 3    bus.send(value 2)   actor 0  overwrote value 1, which receiver 1 had not read",
        "  the end   held, never read",
        "  lost: value 1",
    ];
    assert_told(&found, &wanted, 0, &below);
    assert_eq!(found.look, 3);
}

#[test]
fn a_window_without_calls_is_looked_at_where_it_begins() {
    let entries = ["63 0 send 0 1 = sent 1", "63 0 send 0 2 = sent 1"];
    let bus = r#""lead": 2, "calls": 9, "sent": 7, "handles": [0, 1], "lags": {}"#;
    let names = names(2, bus, NEW_STATE, "");
    let found = account(&["broadcast 4", "watch 0"], &entries, &names);
    assert_eq!((found.calls, found.look), (0, 2));
}

#[test]
fn a_loss_that_the_last_call_of_the_lead_began_was_there_before() {
    // The receiver lags by one where the window begins, and is told. The other channel has calls
    // that were not recorded.
    let entries = [
        "63 0 send 0 0 = sent 1",
        "63 0 send 0 5 = sent 1",
        "1 0 try-recv 1 = lagged 1",
    ];
    let bus = r#""lead": 2, "calls": 9, "sent": 7, "handles": [0, 1], "lags": {}"#;
    let state = r#""lead": 0, "calls": 3, "sent": null, "handles": [0, 1], "lags": {}"#;
    let names = names(2, bus, state, "");
    let found = account(&["broadcast 1", "watch 0"], &entries, &names);
    let wanted = [
        "receiver 1 lost 1 of at most 7 values of `bus` (capacity 1)",
        "  before the window   the overwriting began",
        "  call 3              told: lagged 1          actor 1  its last receive: none in the window",
        "  lost: 1 value, overwritten before the window",
    ];
    assert_eq!(found.facts[0].text(), wanted);
    assert_eq!(found.look, 3);
    assert_eq!(found.unknown, ["12 calls came before the window"]);
}

#[test]
fn the_report_begins_with_why_there_is_a_dump() {
    let text = Report::of(night()).text(None, false);
    let lines: Vec<_> = text.lines().take(4).collect();
    let wanted = [
        "yovanelum: dump of 2026-11-29 03:12:45.120 UTC: `audit` lost 84 values of `prices`; calls 82 to 101; 1 to 81 lead to the window",
        "yovanelum: not all is known: 9999881 calls came before the window",
        "error: `audit` lost 84 of at most 5000000 values of `prices` (capacity 16)",
        "  --> src/main.rs:20:9",
    ];
    assert_eq!(lines, wanted);
    let log = sarif(&night());
    let note = r#"{"level": "note", "message": {"text": "dump of 2026-11-29 03:12:45.120 UTC"#;
    assert!(log.contains(note), "{log}");
}
