//! What a session does with a run that fails: it is told at once, tried again, and run alone.

use crate::Program;
use crate::json::number;
use crate::programs::edges::OUTLIVED;
use std::process::Stdio;

#[test]
fn a_failure_is_told_before_it_is_tried_again() {
    let (passes, said, json) = Program::new("double_claim").explored(100, "0");
    assert!(!passes, "{said}");
    let runs = number(&json, "runs");
    let told = format!("yovanelum: double_claim: run {runs} failed (");
    let (_, rest) = said.split_once(&told).unwrap_or_else(|| panic!("{said}"));
    let (line, rest) = rest.split_once('\n').unwrap();
    assert!(line.contains(" s): tests/programs/threads.rs:"), "{said}");
    assert!(line.ends_with("; its order is tried again"), "{said}");
    assert!(
        rest.starts_with("yovanelum: explored double_claim: "),
        "{said}"
    );
    // Where the first five agree, there are no more.
    assert!(json.contains("\"tries\": [5, 5, 5]"), "{json}");
}

#[test]
fn runs_that_share_a_file_clash_and_go_on_one_at_a_time() {
    let program = Program::new("has_a_file");
    let jobs = ("YOVANELUM_EXPLORE_JOBS", "3");
    let ran = program
        .command()
        .env("YOVANELUM_EXPLORE", "60")
        .env(jobs.0, jobs.1)
        .output()
        .unwrap();
    let said = crate::said(&ran);
    assert!(ran.status.success(), "{said}");
    for line in [
        "yovanelum: has_a_file: a run failed beside others, and passes alone: tests/programs/edges.rs:",
        ": nobody else has the file: ",
        "; from here on one runs at a time, as by YOVANELUM_EXPLORE_JOBS=1\n",
        "explored has_a_file: all 60 runs passed",
        " failed beside others and passed alone, as where they share a port or a file: ",
    ] {
        assert!(said.contains(line), "no `{line}` in {said}");
    }
}

#[test]
fn one_at_a_time_nothing_clashes() {
    let (passes, said, json) = Program::new("has_a_file").explored(20, "0");
    assert!(passes, "{said}");
    assert_eq!(number(&json, "clashes"), 0, "{json}");
}

#[test]
fn what_fails_by_chance_is_no_failure_by_order() {
    let (passes, said, json) = Program::new("fails_by_chance").explored(1000, "0");
    assert!(!passes, "{said}");
    let head = "explored fails_by_chance: fails by chance as much as by order: ";
    assert!(said.contains(head), "{said}");
    for promise in ["again:  ", "  the race: ", "  the switch: "] {
        assert!(!said.contains(promise), "`{promise}` in {said}");
    }
    assert_eq!(json.matches(", 10]").count(), 1, "{json}");
}

#[test]
fn where_no_order_passes_it_says_so() {
    let (passes, said, _) = Program::new("fails_always").explored(20, "0");
    assert!(!passes, "{said}");
    assert!(said.contains("  none of 9 other orders passes\n"), "{said}");
}

#[test]
fn a_run_ends_with_its_process_though_another_one_has_its_standard_error() {
    let program = Program::new("leaves_a_process");
    // The test runs once more behind the exploring, so its own standard error is no pipe either.
    let mut session = program.command();
    session
        .env("YOVANELUM_EXPLORE", "3")
        .env("YOVANELUM_EXPLORE_JOBS", "1")
        .stdout(Stdio::null())
        .stderr(Stdio::null());
    assert!(session.status().unwrap().success());
    let outlived = program.folder.join(OUTLIVED);
    assert!(!outlived.exists(), "the session waits for it");
}
