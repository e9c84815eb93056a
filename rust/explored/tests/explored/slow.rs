//! Tests that take long, since runs hang or are many: `rust/test slow` runs them.

use crate::json::text;
use crate::{
    PROGRAMS, Program, assert_brought_back, assert_found, assert_in_some_session, assert_one_order,
    assert_right_in, assert_tells_time,
};
use std::fs;
use std::path::Path;

#[test]
#[ignore = "rust/test slow runs it"]
fn a_client_that_waits_forever_is_found() {
    assert_found(
        "waits_forever",
        &[
            "yovanelum: waits_forever hangs: everybody waits forever; its calls so far are in ",
            "yovanelum: still waiting: client in `channel of tests/programs/threads.rs:275: changed`, tests/programs/threads.rs:",
        ],
    );
}

#[test]
#[ignore = "rust/test slow runs it"]
fn an_order_in_which_time_passes_is_found() {
    let lines = [
        "  time passed at step ",
        " while `monitor` stood ready\n",
        "Lagged(",
    ];
    assert_in_some_session(|| assert_found("heart_and_monitor", &lines));
}

#[test]
#[ignore = "rust/test slow runs it"]
fn a_task_that_is_told_too_early_is_found() {
    assert_found(
        "told_too_early",
        &["told_too_early hangs: everybody waits forever"],
    );
}

#[test]
#[ignore = "rust/test slow runs it"]
fn a_message_that_a_server_loses_on_two_workers_is_found() {
    let lines = [
        "`connection 1` was held before channel 0.subscribe (",
        "chat hangs: everybody waits forever",
    ];
    // Which worker polls what isn't chosen.
    assert_in_some_session(|| drop(assert_brought_back("chat", &lines, 7)));
}

/// Their runs wait for their timers.
#[test]
#[ignore = "rust/test slow runs it"]
fn bugs_of_time_are_found() {
    for name in [
        "asks_again",
        "flushed_in_between",
        "taken_to_be_dead",
        "evicted_before_it_is_read",
        "published_too_early",
        "given_up_at_stop",
        "two_leaders",
        "second_answer_is_late",
    ] {
        // Their timers are those of the machine's clock. What comes back less often than in half of
        // its tries is told as chance, without the order's name.
        assert_in_some_session(|| assert_tells_time(&assert_brought_back(name, &[], 5)));
    }
    assert_one_order("waits_for_a_limit", &[]);
}

/// Each takes seconds, since runs and replays hang.
#[test]
#[ignore = "rust/test slow runs it"]
fn sessions_of_one_test_beside_each_other_keep_their_files() {
    let journals = std::thread::scope(|scope| {
        let explored = || {
            let (passes, said, json) = Program::new("waits_forever").explored(100, "0");
            assert!(!passes, "{said}");
            let journal = text(&json, "journal");
            let replay = said.lines().find(|line| line.starts_with("replay: "));
            assert!(replay.unwrap().contains(&journal), "no {journal} in {said}");
            journal
        };
        [(); 2]
            .map(|()| scope.spawn(explored))
            .map(|session| session.join().unwrap())
    });
    assert!(journals[0] != journals[1], "{journals:?}");
    for journal in journals {
        let names = fs::read_to_string(Path::new(&journal).with_extension("names")).unwrap();
        assert!(Path::new(&journal).exists() && names.contains("waits_forever"));
    }
}

/// It takes ten seconds until a run is said to have no end.
#[test]
#[ignore = "rust/test slow runs it"]
fn a_run_that_ends_where_all_go_on_in_turn_does_not_hang() {
    let (passes, said, json) = Program::new("ends_in_turn").explored(2, "0");
    assert!(passes, "{said}");
    for line in [
        " had no end; it is tried again where all who stand go on in turn\n",
        "\n  1 run beside them had no end, and one where all who stand go on in turn\n",
    ] {
        assert!(said.contains(line), "no `{line}` in {said}");
    }
    assert_eq!(crate::json::number(&json, "endless"), 1, "{json}");
}

#[test]
#[ignore = "rust/test slow runs it"]
fn right_programs_pass_in_many_runs() {
    let right = PROGRAMS.iter().map(|(name, _)| *name);
    let right = right.skip_while(|name| *name != crate::table::FIRST_RIGHT);
    // It has one order alone.
    let right = right.filter(|name| *name != "spin");
    right.for_each(|name| assert_right_in(60, name, &[]));
}
