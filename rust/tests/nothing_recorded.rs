//! A package outside of this one, whose test records nothing: each line that it prints says so, and
//! names the likely cause.
// It is built without optimization in either build of this test, so one of the two runs it.
#![cfg(all(target_os = "linux", debug_assertions))]

mod support;

use std::fs;
use std::process::Output;
use std::sync::OnceLock;
use support::workspace::{Workspace, in_turn, printed};

/// A test over the channels of the standard library, as it is where nobody has swapped them. With a
/// variable they are recorded ones.
const TESTS: &str = r#"
use std::{env, fs, thread};
use yovanelum::{Recorder, broadcast};

/// The number of this run, where a file counts them.
fn number() -> Option<usize> {
    let file = env::var_os("COUNTED")?;
    let number = fs::read(&file).map_or(0, |bytes| bytes.len());
    fs::write(file, vec![b'x'; number + 1]).unwrap();
    Some(number)
}

fn is_recorded() -> bool {
    env::var_os("RECORDED").is_some() || number().is_some_and(|number| number % 2 == 1)
}

#[test]
fn an_order_arrives() {
    let _recorder = Recorder::for_test("an_order_arrives");
    let first = if env::var_os("ELSEWHERE").is_some() {
        let (orders, mut audit) = thread::spawn(|| broadcast::channel(2)).join().unwrap();
        orders.send(71).unwrap();
        audit.try_recv().unwrap()
    } else if is_recorded() {
        let (orders, mut audit) = broadcast::channel(2);
        orders.send(71).unwrap();
        audit.try_recv().unwrap()
    } else {
        let (orders, audit) = std::sync::mpsc::channel();
        orders.send(71).unwrap();
        audit.try_recv().unwrap()
    };
    assert!(env::var_os("FAILS").is_none(), "order {first} is late");
}
"#;

/// The start of the line, and the cause where nobody has swapped tokio's channels.
const NOTHING: &str = "yovanelum: an_order_arrives recorded nothing: ";

fn cause() -> String {
    let facade = concat!(env!("CARGO_MANIFEST_DIR"), "/tokio-recorded");
    format!(
        "are tokio's channels swapped? With the patch: cargo test --config 'patch.crates-io.tokio.path=\"{facade}\"'\n"
    )
}

fn workspace() -> &'static Workspace {
    static WORKSPACE: OnceLock<Workspace> = OnceLock::new();
    WORKSPACE.get_or_init(|| Workspace::of_shop("nothing_recorded", "orders", TESTS))
}

/// Runs the test with these variables before the command, and these arguments behind it.
fn run(variables: &str, arguments: &str) -> Output {
    let line = format!("{variables} cargo test --test orders an_order_arrives {arguments}");
    workspace().shell(&line).output().unwrap()
}

/// The same, where it is to pass or to fail. Returns all that is printed.
fn said(variables: &str, arguments: &str, passes: bool) -> String {
    let ran = run(variables, arguments);
    assert_eq!(ran.status.success(), passes, "{}", printed(&ran));
    printed(&ran)
}

#[test]
fn a_test_that_records_nothing_says_so_once_and_why() {
    let _turn = in_turn();
    let line = format!("{NOTHING}{}", cause());
    let failed = said("FAILS=1", "", false);
    assert_eq!(failed.matches("yovanelum: ").count(), 1, "{failed}");
    assert!(failed.contains(&line), "{failed}");
    // There is nothing to replay or to look at.
    let offered = ["replay: ", "look: ", "no value was lost"];
    let offered = offered.iter().find(|start| failed.contains(**start));
    assert_eq!(offered, None, "{failed}");
    let passed = said("", "-- --nocapture", true);
    assert!(passed.contains(&line), "{passed}");
    let captured = said("", "", true);
    assert!(!captured.contains("yovanelum: "), "{captured}");
    let recorded = said("RECORDED=1", "-- --nocapture", true);
    assert!(!recorded.contains("yovanelum: "), "{recorded}");
}

#[test]
fn a_channel_that_no_recorder_has_is_named_as_the_cause() {
    let _turn = in_turn();
    let failed = said("ELSEWHERE=1 FAILS=1", "", false);
    let line = format!(
        "{NOTHING}a channel was created at tests/orders.rs:21, and belongs to no recorder: one records those that are created on a thread that has entered it "
    );
    assert!(failed.contains(&line), "{failed}");
}

#[test]
fn a_replay_that_records_nothing_says_why_also_where_the_test_passes() {
    let _turn = in_turn();
    let failed = said("RECORDED=1 FAILS=1", "", false);
    let replay = failed
        .lines()
        .find_map(|line| line.strip_prefix("replay: "));
    let replay = replay.unwrap_or_else(|| panic!("{failed}"));
    for (variables, passes) in [("", true), ("FAILS=1", false)] {
        let ran = workspace().shell(&format!("{variables} {replay}"));
        let ran = { ran }.output().unwrap();
        let said = printed(&ran);
        assert_eq!(ran.status.success(), passes, "{said}");
        let ended = "yovanelum: replay of an_order_arrives.journal: ended before call 1 of 4: ";
        assert!(said.contains(ended), "{said}");
        let line = format!("{NOTHING}{}", cause());
        assert_eq!(said.matches(&line).count(), 1, "{said}");
    }
    let replayed = said(
        &format!("RECORDED=1 FAILS=1 {}", variable_of(replay)),
        "",
        false,
    );
    assert!(!replayed.contains("recorded nothing"), "{replayed}");
}

/// Returns the variable that a replay's line sets.
fn variable_of(replay: &str) -> &str {
    replay.split_once(' ').unwrap().0
}

#[test]
fn exploring_where_nothing_is_recorded_fails_after_the_first_runs() {
    let _turn = in_turn();
    let explore = "YOVANELUM_EXPLORE=200 YOVANELUM_EXPLORE_JOBS=1";
    let explored = said(explore, "", false);
    let line = format!(
        "yovanelum: explored an_order_arrives: nothing was recorded in any of 5 runs, so no order was chosen: {}",
        cause()
    );
    assert!(explored.contains(&line), "{explored}");
    assert!(!explored.contains("passed, in"), "{explored}");
    let failed = said(&format!("{explore} FAILS=1"), "", false);
    let line = format!(
        "yovanelum: explored an_order_arrives: run 1 failed, but recorded nothing, so no order was chosen: {}",
        cause()
    );
    assert!(failed.contains(&line), "{failed}");
    assert!(failed.contains("order 71 is late"), "{failed}");
    for offered in ["again: ", "replay: ", "look: ", "brings it back"] {
        assert!(!failed.contains(offered), "{offered} in {failed}");
    }
}

#[test]
fn exploring_says_how_many_runs_recorded_nothing_where_others_did() {
    let _turn = in_turn();
    let counted = workspace().0.join("counted");
    let _ = fs::remove_file(&counted);
    let explore = format!(
        "YOVANELUM_EXPLORE=20 YOVANELUM_EXPLORE_JOBS=1 COUNTED='{}'",
        counted.display()
    );
    // Each second run records something, and has one order.
    let explored = said(&explore, "", false);
    assert!(explored.contains(": nothing was explored: there was one order alone in 5 runs"));
    let line = format!("\n  3 of 5 runs recorded nothing: {}", cause());
    assert!(explored.contains(&line), "{explored}");
}
