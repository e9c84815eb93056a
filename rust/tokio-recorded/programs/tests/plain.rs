//! Programs of plain tokio are explored, without a recorder and without an edit: bugs of order are
//! found, and right programs pass. Each test runs this program again, as a process.

#[path = "plain/bugs.rs"]
mod bugs;
#[path = "plain/counted.rs"]
mod counted;
#[path = "plain/pairs.rs"]
mod pairs;
#[path = "plain/right.rs"]
mod right;

use std::process::{Command, Output};

/// Explores a program of this file, as `cargo yovanelum explore` does.
fn explorer(name: &str, runs: u64) -> Command {
    let mut command = Command::new(std::env::current_exe().unwrap());
    command
        .args(["--ignored", "--exact", name])
        .env("YOVANELUM_COMMAND", "1")
        .env("YOVANELUM_EXPLORE", runs.to_string())
        .env("YOVANELUM_EXPLORE_JOBS", "1");
    command
}

fn explored(name: &str, runs: u64) -> Output {
    explorer(name, runs).output().unwrap()
}

/// Asserts that an order is found in which it fails, and that it comes back each time.
fn assert_found(name: &str) {
    let ran = explored(name, 500);
    let said = String::from_utf8(ran.stderr).unwrap();
    assert!(!ran.status.success() && said.contains(" 5 of 5"), "{said}");
}

#[test]
fn the_first_task_is_a_step() {
    assert_found("pairs::begins_with_a_spawn");
    assert_found("pairs::begins_with_a_channel");
}

#[test]
fn the_body_of_a_test_is_a_step() {
    assert_found("pairs::set_by_the_body");
    assert_found("pairs::set_by_a_task");
}

#[test]
fn tasks_without_a_recorded_channel_are_steps() {
    assert_found("pairs::without_a_channel");
    assert_found("pairs::with_a_channel");
}

#[test]
fn bugs_of_notices_cells_and_locks_are_found() {
    for name in [
        "a_notice_is_missed",
        "fetched_twice",
        "told_before_it_is_whole",
        "set_twice",
    ] {
        assert_found(&format!("bugs::{name}"));
    }
}

#[test]
fn bugs_of_cancelled_tasks_are_found() {
    for name in [
        "half_a_frame",
        "aborted_in_between",
        "answers_who_is_gone",
        "a_session_misses_the_stop",
    ] {
        assert_found(&format!("bugs::{name}"));
    }
}

#[test]
fn bugs_of_queues_permits_and_sets_are_found() {
    for name in [
        "dropped_when_busy",
        "stops_before_its_job",
        "answer_of_the_first",
        "numbers_out_of_order",
    ] {
        assert_found(&format!("bugs::{name}"));
    }
}

/// Explores two tasks with so many polls in so many runs, and returns what it says of the orders
/// with each number of switches: how many passed, and of how many that are known.
fn counts_of(polls: [usize; 2], runs: u64) -> (String, Vec<[u64; 2]>) {
    let out = std::env::temp_dir().join(format!("counted-{}-{}-{runs}", polls[0], polls[1]));
    let ran = explorer("counted::two_tasks", runs)
        .env("POLLS", format!("{},{}", polls[0], polls[1]))
        .env("YOVANELUM_EXPLORE_OUT", &out)
        .output()
        .unwrap();
    let said = String::from_utf8(ran.stderr).unwrap();
    assert!(ran.status.success(), "{said}");
    let json = std::fs::read_to_string(&out).unwrap();
    std::fs::remove_file(out).unwrap();
    let (_, counts) = json.split_once("\"bySwitches\": [[").unwrap();
    let (counts, _) = counts.split_once("]]").unwrap();
    let number = |text: &str| text.parse().unwrap();
    let counts = counts.split("], [").map(|pair| {
        let (passed, known) = pair.split_once(", ").unwrap();
        [number(passed), number(known)]
    });
    (said, counts.collect())
}

/// What "covered" says is what a count of all orders says that there are.
#[test]
fn all_orders_are_counted() {
    for polls in [[1, 1], [1, 2], [2, 2]] {
        let all = counted::all_orders(polls);
        let count: u64 = all.values().sum();
        let (said, counts) = counts_of(polls, 2 * count + 4);
        for (switches, [passed, known]) in counts.into_iter().enumerate() {
            let wanted = all.get(&switches).copied().unwrap_or(0);
            assert_eq!(
                [passed, known],
                [wanted; 2],
                "{polls:?}, {switches}: {said}"
            );
        }
        let most = all.keys().max().unwrap();
        if *most <= 3 {
            let line = format!("all {count} orders that there are passed, and there is no other");
            assert!(said.contains(&line), "{said}");
        }
    }
}

/// Of orders that were not all tried, no more are known than there are.
#[test]
fn orders_that_were_not_tried_are_not_counted_as_tried() {
    let polls = [2, 3];
    let all = counted::all_orders(polls);
    let (said, counts) = counts_of(polls, 12);
    let passed: u64 = counts.iter().map(|[passed, _]| passed).sum();
    assert_eq!(passed, 6, "{said}");
    for (switches, [_, known]) in counts.into_iter().enumerate() {
        let most = all.get(&switches).copied().unwrap_or(0);
        assert!(known <= most, "{switches}: {said}");
    }
    assert!(!said.contains(" there is no other"), "{said}");
}

/// Asserts that no order of right programs fails.
fn assert_right(names: &[&str]) {
    for name in names {
        let name = format!("right::{name}");
        let ran = explored(&name, 40);
        let said = String::from_utf8(ran.stderr).unwrap();
        let line = format!("explored {name}: all 40 runs passed");
        assert!(ran.status.success() && said.contains(&line), "{said}");
    }
}

#[test]
fn no_keepalive_starves_its_reader() {
    assert_right(&[
        "keepalive_beside_a_reader",
        "two_keepalives",
        "heart_and_patient_monitor",
        "ping_pong_until_told",
    ]);
}

#[test]
fn no_loop_of_retries_ends_since_its_server_is_held() {
    assert_right(&[
        "asks_until_answered",
        "asks_twenty_times",
        "retries_with_backoff",
        "yields_until_it_is_done",
        "sleeps_until_it_is_done",
    ]);
}

#[test]
fn no_interval_lease_or_grace_ends_since_tasks_are_held() {
    assert_right(&[
        "ticks_beside_work",
        "flushed_by_size_or_time",
        "renewed_in_time",
        "a_lease_for_each_owner",
        "blocking_work_in_time",
        "ends_in_its_grace",
    ]);
}

/// Explores a program for so many seconds, and asserts that it says how many it has taken, and that
/// these aren't many more.
fn assert_ends(name: &str, seconds: u32) -> bool {
    let out = std::env::temp_dir().join(format!("ends-{}", name.replace(':', "-")));
    let ran = explorer(name, 1_000_000)
        .env("YOVANELUM_EXPLORE_SECONDS", seconds.to_string())
        .env("YOVANELUM_EXPLORE_OUT", &out)
        .output()
        .unwrap();
    let said = String::from_utf8(ran.stderr).unwrap();
    let json = std::fs::read_to_string(&out).unwrap();
    std::fs::remove_file(out).unwrap();
    let (_, took) = json.split_once("\"seconds\": ").unwrap();
    let (took, _) = took.split_once(',').unwrap();
    let most = f64::from(seconds) + 5.0;
    assert!(took.parse::<f64>().unwrap() < most, "{took} s: {said}");
    ran.status.success()
}

/// A search that finds nothing ends in its time, and so does all that is made of a failing order,
/// of which each run waits for half a second until it is said to hang.
#[test]
fn all_ends_in_the_time_that_is_given() {
    assert!(assert_ends("right::ends_in_its_grace", 2));
    assert!(!assert_ends("bugs::a_notice_is_missed", 6));
}
