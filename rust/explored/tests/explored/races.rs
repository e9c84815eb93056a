//! The two steps that make the difference are named, also where they are polls of tasks that share
//! a lock, a message or a flag, and no channel is recorded.

use crate::Program;
use crate::json::number;
use std::fs;

/// Asserts that the race of this program is found, and is told with these parts in their order.
fn assert_race(name: &'static str, parts: &[&str]) {
    let program = Program::new(name);
    let (passes, said, json) = program.explored(500, "0");
    assert!(!passes, "{said}");
    let told = said.split_once("  the race: it fails where ");
    let (_, rest) = told.unwrap_or_else(|| panic!("no race in {said}"));
    let (race, _) = rest.split_once(" the other way round\n").unwrap();
    let mut left = race;
    for part in parts {
        let found = left.split_once(part);
        left = found.unwrap_or_else(|| panic!("no `{part}` in {race}")).1;
    }
    assert_eq!(number(&json, "nothingRecorded"), 0, "{json}");
    assert!(json.contains("\"race\": \"it fails where `"), "{json}");
}

const YIELDS: &str = "yield_now (tests/programs/races.rs:";

#[test]
fn two_who_lock_a_mutex() {
    assert_race(
        "first_to_lock",
        &[
            "`bob` went on from ",
            YIELDS,
            "before `ann` ",
            "Mutex::lock",
        ],
    );
}

#[test]
fn two_who_read_and_write_under_a_lock() {
    let parts = ["` went on ", ",\n            before `", "passes"];
    assert_race("added_to_an_old_sum", &parts);
}

#[test]
fn one_who_notifies_before_another_one_waits() {
    let parts = ["` went on from ", YIELDS, "before `", "` went on from "];
    assert_race("rings_too_early", &parts);
}

#[test]
fn a_permit_that_is_not_left() {
    let parts = ["`desk` went on from ", "before `holder` went on from "];
    assert_race("no_permit_left", &parts);
}

#[test]
fn two_who_wait_for_the_permit_of_the_other_one() {
    let parts = ["` went on from ", "before `", "` went on from ", "passes"];
    assert_race("one_permit_each", &parts);
    let program = Program::new("one_permit_each");
    let (_, said, _) = program.explored(500, "0");
    for who in ["ann", "bob"] {
        let waits = format!("yovanelum: still waiting: {who} in `Semaphore::acquire`, tests/");
        assert!(said.contains(&waits), "no `{waits}` in {said}");
    }
}

#[test]
fn two_who_send_a_message() {
    let parts = [
        "`south` went on from ",
        "before `north` went on from its start",
    ];
    assert_race("first_message", &parts);
}

#[test]
fn one_who_looks_once_for_a_message() {
    let parts = [
        "`clerk` went on from ",
        "to its end",
        "before `shop` went on from ",
    ];
    assert_race("looks_once", &parts);
}

#[test]
fn one_who_answers_too_late() {
    let parts = ["`client` went on from ", "before `server` went on from "];
    assert_race("answers_too_late", &parts);
}

#[test]
fn a_server_that_has_not_begun() {
    let parts = [
        "`client` went on from ",
        "before `server` went on from its start",
    ];
    assert_race("not_listening_yet", &parts);
}

#[test]
fn a_stop_that_comes_before_a_job_is_done() {
    let parts = ["`chief` went on from ", "before `worker` went on from "];
    assert_race("stopped_before_its_job", &parts);
}

#[test]
fn a_call_that_comes_before_another_one() {
    let program = Program::new("lost_update");
    let (_, said, _) = program.explored(500, "0");
    let race = "  the race: it fails where `admin` made channel 0.send (tests/programs/threads.rs:48),\n            \
        before `reader` made channel 0.mark_unchanged (:42), and passes the other way round\n";
    assert!(said.contains(race), "{said}");
    // The names of the run have both calls by their stamps.
    let (_, names) = said.split_once("replay: YOVANELUM_REPLAY=").unwrap();
    let (names, _) = names.split_once(".journal").unwrap();
    let names = fs::read_to_string(format!("{names}.names")).unwrap();
    let (_, race) = names
        .split_once("\n  \"race\": {\"text\": \"it fails where")
        .unwrap();
    let (race, _) = race.split_once('\n').unwrap();
    let stamps = race.split("\"stamp\": ").skip(1);
    let stamps = stamps.map(|it| it.split_once('}').unwrap().0.parse().unwrap());
    let stamps: Vec<u64> = stamps.collect();
    assert!(stamps.len() == 2 && stamps[0] < stamps[1], "{race}");
}
