//! What is said of a replay in the end.

use super::{
    AUDIT, CLERK, JOURNAL, NAMES, NOBODY, PATIENT, call, gate, gate_of, make, make_first, ordered,
    tell_made,
};
use crate::channels::recorder::NotedPanic;
use crate::channels::turns::{ArrivingCall, TestEnd, Turns};
use crate::schedule::replay::Gate;
use std::sync::Arc;
use std::thread;
use yovanelum_record::operation::Operation;

/// The last call of the journal.
fn last() -> ArrivingCall {
    call(CLERK, 0, Operation::Drop, 0)
}

#[test]
fn a_replay_without_its_last_call_says_so() {
    let gate = gate();
    make_first(&gate, 5);
    let replayed = gate.outcome();
    assert!(!replayed.is_in_order());
    let before = "ended before call 6 of 6: `drop 0` on `orders` by `clerk`";
    assert_eq!(replayed.to_string(), before);
    assert_eq!(
        replayed.at_end(TestEnd::Passed),
        format!("{before}; the test passed")
    );
}

/// Whether a replay is in order whose last call is made while its end waits for that.
fn waits_for_last_call() -> bool {
    let gate = gate();
    make_first(&gate, 5);
    thread::scope(|scope| {
        scope.spawn(|| gate.conclude(TestEnd::Unknown));
        while gate.entrance.lock().blocked.is_empty() && !gate.entrance.is_over() {
            thread::yield_now();
        }
        make(&gate, last());
    });
    gate.outcome().is_in_order()
}

#[test]
fn the_end_waits_for_calls_that_are_on_their_way() {
    // It waits for a quarter of a second, in which this thread may not run under load.
    assert!((0..20).any(|_| waits_for_last_call()));
}

/// Makes a call whose value has this text.
fn make_with(gate: &Arc<Gate>, coming: ArrivingCall, text: &str) {
    let channel = ordered(gate);
    tell_made(channel.pass(coming, &|| false), Some(text));
}

/// Returns how a replay goes whose values have these texts.
fn sent(names: &str, [first, state, second]: [&str; 3]) -> String {
    let gate = gate_of(JOURNAL, names, PATIENT);
    make_with(&gate, call(CLERK, 0, Operation::Send, 0), first);
    make(&gate, call(AUDIT, 0, Operation::Recv, 1));
    make_with(&gate, call(CLERK, 1, Operation::Modify, 0), state);
    make_with(&gate, call(NOBODY, 0, Operation::Send, 0), second);
    make(&gate, call(AUDIT, 0, Operation::TryRecv, 1));
    make(&gate, last());
    gate.outcome().to_string()
}

#[test]
fn a_text_is_compared_with_that_of_its_value() {
    let values = r#""order 72"}, "1": {"1": "open"}}"#;
    let names = NAMES.replace(r#""order 72"}}"#, values);
    let all = "all 6 calls in the recorded order";
    assert_eq!(sent(&names, ["order 71", "open", "order 72"]), all);
    assert_eq!(
        sent(&names, ["order 71", "closed", "order 72"]),
        format!("{all}; call 3 of 6 sent `closed`, where it had sent `open`")
    );
    // The first is told, also where later ones are the same, or others as well.
    for second in ["order 72", "order 74"] {
        assert_eq!(
            sent(&names, ["order 73", "open", second]),
            format!("{all}; call 1 of 6 sent `order 73`, where it had sent `order 71`")
        );
    }
}

#[test]
fn a_failure_is_the_same_where_it_ends_by_the_same_panic() {
    let panics = r#""panics": [{"text": "no stock", "location": null, "actor": null, "since": 2},
        {"text": "no order", "location": null, "actor": null, "since": 6}], "failed""#;
    let gate = gate_of(JOURNAL, &NAMES.replace("\"failed\"", panics), PATIENT);
    make_first(&gate, 6);
    let at_end = |texts: &[&str]| {
        let panics: Vec<_> = texts.iter().map(|it| NotedPanic::with_text(it)).collect();
        gate.outcome().at_end(TestEnd::Failed(&panics))
    };
    let all = "all 6 calls in the recorded order";
    let same = format!("{all}; the same failure");
    assert_eq!(at_end(&["no stock", "no order"]), same);
    assert_eq!(at_end(&["no order"]), same);
    // The journal's test went on after this one.
    let other = format!("{all}; another failure: no stock");
    assert_eq!(at_end(&["no stock"]), other);
}
