//! Two small runs, worked by hand: which call differs first, and how that is said.

use super::Against;
use yovanelum_record::journal::Run;
use yovanelum_record::sidecar::Sidecar;

/// Compares two runs of one broadcast of two: their entries with the stamps 1, 2, 3, .., and the
/// names beside them.
fn against(here: (&[&str], &str), there: (&[&str], &str)) -> Vec<String> {
    let read = |(entries, names): (&[&str], &str)| {
        let mut text = String::from("ttd-journal 2\nbroadcast 2\nsteps\n");
        for (entry, stamp) in entries.iter().zip(1..) {
            text += &format!("{stamp} {entry}\n");
        }
        let run = Run::read((text + "end\n").as_bytes()).unwrap();
        (run, Sidecar::read(names).unwrap())
    };
    let (here, there) = (read(here), read(there));
    Against::of((&here.0, &here.1), (&there.0, &there.1)).lines
}

const FAILED: &str =
    r#"{"actors": {"0": "shop", "1": "audit"}, "channels": {"0": "orders"}, "failed": true}"#;
/// The same callers with other numbers.
const PASSED: &str = r#"{"actors": {"1": "shop", "0": "audit"}, "channels": {"0": "orders"}}"#;

#[test]
fn a_receive_that_came_before_the_send_is_the_first_difference() {
    let here = [
        "0 0 send 0 1 = sent 1",
        "1 0 try-recv 1 = value 1",
        "1 0 try-recv 1 = empty",
        "0 0 send 0 2 = sent 1",
    ];
    let there = [
        "1 0 send 0 1 = sent 1",
        "0 0 try-recv 1 = value 1",
        "1 0 send 0 2 = sent 1",
        "0 0 try-recv 1 = value 2",
    ];
    let wanted = [
        "the first difference: call 3, `audit` received after the send in the passing run",
        "  here    call 3   orders.try_recv()      audit  empty",
        "  here    call 4   orders.send(value 2)   shop   sent 1",
        "  there   call 3   orders.send(value 2)   shop   sent 1",
        "  there   call 4   orders.try_recv()      audit  value 2",
        "4 calls here, 4 calls there: 1 differs",
    ];
    assert_eq!(against((&here, FAILED), (&there, PASSED)), wanted);
    let lines = against((&there, PASSED), (&here, FAILED));
    assert_eq!(
        lines[0],
        "the first difference: call 4, `audit` received before the send in the failing run"
    );
}

#[test]
fn receivers_may_take_turns_without_a_difference() {
    let here = [
        "0 0 subscribe 0 = new 2",
        "0 0 send 0 1 = sent 2",
        "1 0 recv 1 = value 1",
        "2 0 recv 2 = value 1",
    ];
    let there = [
        "0 0 subscribe 0 = new 2",
        "0 0 send 0 1 = sent 2",
        "2 0 recv 2 = value 1",
        "1 0 recv 1 = value 1",
    ];
    let wanted = [
        "no call differs",
        "4 calls here, 4 calls there: all the same",
    ];
    assert_eq!(against((&here, "{}"), (&there, "{}")), wanted);
}

#[test]
fn a_handle_is_the_one_that_the_same_caller_made() {
    // Both subscribe, in another order, and receive by their own receivers.
    let here = [
        "0 0 subscribe 0 = new 2",
        "1 0 subscribe 0 = new 3",
        "0 0 send 0 1 = sent 3",
        "1 0 recv 3 = value 1",
    ];
    let there = [
        "1 0 subscribe 0 = new 2",
        "0 0 subscribe 0 = new 3",
        "0 0 send 0 1 = sent 3",
        "1 0 recv 2 = value 1",
    ];
    assert_eq!(against((&here, "{}"), (&there, "{}"))[0], "no call differs");
    let there = [&there[..3], &["1 0 recv 3 = value 1"]].concat();
    let wanted = "the first difference: call 4, actor 1 made another call in the other run";
    assert_eq!(against((&here, "{}"), (&there, "{}"))[0], wanted);
}

#[test]
fn what_one_run_alone_has_is_a_difference() {
    let here = ["0 0 send 0 1 = sent 1", "1 0 recv 1 = value 1"];
    let wanted = [
        "the first difference: call 2, actor 1 doesn't make it in the other run",
        "  here    call 2   channel 0: recv()   actor 1  value 1",
        "2 calls here, 1 call there: 1 only here",
    ];
    assert_eq!(against((&here, "{}"), (&here[..1], "{}")), wanted);
    let lines = against((&here[..1], "{}"), (&here, "{}"));
    let wanted = "the first difference: call 2 of the other run, actor 1 doesn't make it here";
    assert_eq!(lines[0], wanted);
    assert_eq!(lines[2], "1 call here, 2 calls there: 1 only there");
}

#[test]
fn values_are_the_same_by_their_texts() {
    let names = |text| format!(r#"{{"values": {{"0": {{"1": "{text}"}}}}}}"#);
    let here = ["0 0 send 0 1 = sent 1"];
    let (a, b) = (names("a"), names("b"));
    assert_eq!(against((&here, &a), (&here, &a))[0], "no call differs");
    let wanted = "the first difference: call 1, actor 0 sent another value in the other run";
    assert_eq!(against((&here, &a), (&here, &b))[0], wanted);
}

#[test]
fn a_close_that_comes_earlier_is_named() {
    let here = [
        "0 0 send 0 1 = sent 1",
        "1 0 recv 1 = value 1",
        "0 0 drop 0 = dropped",
    ];
    let there = [
        "0 0 send 0 1 = sent 1",
        "0 0 drop 0 = dropped",
        "1 0 recv 1 = value 1",
    ];
    let lines = against((&here, "{}"), (&there, "{}"));
    let wanted = "the first difference: call 2, actor 1 received after the close in the other run";
    assert_eq!(lines[0], wanted);
    assert_eq!(lines.len(), 6);
}

#[test]
fn channels_are_the_same_by_their_makers() {
    let journal = "ttd-journal 2\nwatch 0\nwatch 0\nsteps\n1 0 0 send 0 5 = stored\nend\n";
    let other = journal.replace("0 0 send", "0 1 send");
    let names = |first, second| {
        let text = format!(
            r#"{{"actors": {{"0": "t"}}, "made_by": {{"0": ["t", {first}], "1": ["t", {second}]}}}}"#
        );
        Sidecar::read(&text).unwrap()
    };
    let runs = [journal, &other].map(|text| Run::read(text.as_bytes()).unwrap());
    let lines = |a: Sidecar, b: Sidecar| Against::of((&runs[0], &a), (&runs[1], &b)).lines;
    assert_eq!(lines(names(0, 1), names(1, 0))[0], "no call differs");
    let wanted = "the first difference: call 1, `t` made another call in the other run";
    assert_eq!(lines(names(0, 1), names(0, 1))[0], wanted);
}

#[test]
fn a_lead_is_no_part_of_what_is_compared() {
    // Of two dumps of one test, the first begins two values earlier, so that its lead is longer. In
    // both receiver 2 is the one that the channel created as the 42nd of its handles.
    let names = |lead, failed| {
        format!(
            r#"{{"actors": {{"0": "shop", "1": "audit", "63": "before the window"}}, "failed": {failed},
            "window": {{"trigger": "call", "reason": "asked", "at": null, "lead": {lead}, "channels": {{"0":
            {{"lead": {lead}, "calls": 900, "sent": 450, "handles": [0, 1, 41], "lags": {{}}}}}}}}}}"#
        )
    };
    let short = [
        "63 0 subscribe 0 = new 2",
        "63 0 drop 1 = dropped",
        "0 0 send 0 7 = sent 1",
        "1 0 recv 2 = value 7",
    ];
    let long = [
        "63 0 send 0 5 = sent 1",
        "63 0 subscribe 0 = new 2",
        "63 0 send 0 6 = sent 2",
        "63 0 drop 1 = dropped",
        "0 0 send 0 7 = sent 1",
        "1 0 recv 2 = value 6",
    ];
    let (a, b) = (names(4, true), names(2, false));
    let wanted = [
        "the first difference: call 6, `audit` got another reply in the passing run",
        "  here    call 6   channel 0: recv()   audit  value 6",
        "  there   call 4   channel 0: recv()   audit  value 7",
        "2 calls here, 2 calls there: 1 differs",
    ];
    let lines = against((&long, &a), (&short, &b));
    assert_eq!(lines, wanted);
    let lines = against((&long[..5], &a), (&short, &b));
    let wanted = "the first difference: call 4 of the passing run, `audit` doesn't make it here";
    assert_eq!((lines[0].as_str(), lines.len()), (wanted, 3));
    // Another receiver in its place makes another call.
    let other = b.replace("41", "42");
    let lines = against((&short, &other), (&short, &b));
    let wanted = "the first difference: call 4, `audit` made another call in the other run";
    assert_eq!(lines[0], wanted);
}

#[test]
fn a_close_by_a_lead_is_no_call() {
    let names = r#"{"actors": {"0": "shop", "1": "audit"}, "window": {"trigger": "call", "reason": "asked", "at": null, "lead": 1,
        "channels": {"0": {"lead": 1, "calls": 900, "sent": 0, "handles": [0, 1], "lags": {}}}}}"#;
    let here = ["63 0 drop 0 = dropped", "1 0 try-recv 1 = closed"];
    let there = ["1 0 try-recv 1 = empty"];
    let lines = against((&here, names), (&there, FAILED));
    let wanted = [
        "the first difference: call 2, `audit` received before the close in the failing run",
        "  here    call 2   channel 0: try_recv()   audit  closed",
        "  there   call 1   orders.try_recv()      audit  empty",
        "1 call here, 1 call there: 1 differs",
    ];
    assert_eq!(lines[0], wanted[0]);
    assert_eq!(lines[3], wanted[3]);
    assert_eq!(lines.len(), 4);
}
