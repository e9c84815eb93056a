//! Under the patch, timers end by a clock that stands still while tasks are held, and a choice may
//! let a short one end. Each test runs this program again, as a process.

// Its package has another edition, by which it is formatted.
#[allow(dead_code)]
#[path = "../../../explored/tests/programs/mod.rs"]
#[rustfmt::skip]
mod programs;

use std::process::Command;

/// Declares a test for each program, which is explored by others.
macro_rules! programs {
    ($($group:ident: $($name:ident)*;)*) => {
        mod run {
            $($(
                #[test]
                #[ignore = "it is explored by another test"]
                fn $name() {
                    let _recorder = yovanelum::Recorder::for_test(stringify!($name));
                    crate::programs::$group::$name();
                }
            )*)*
        }
    };
}

programs! {
    timers: ready_within_a_limit leaves_when_idle asks_again flushed_in_between taken_to_be_dead evicted_before_it_is_read
        published_too_early given_up_at_stop two_leaders second_answer_is_late;
    limits: limit_of_a_game limit_on_workers limit_by_a_sleep limit_put_off deadline_of_many limit_beside_ticks
        connections_end_in_time connections_take_three_quarters sleeps_beside_a_receive
        waits_for_a_limit limit_outside_of_its_runtime;
    edges: listens_by_then;
    right: paused_clock long_timeout socket spin held_lock nested_closures barrier biased_select join_set blocking_pool many_sends;
}

/// Explores a program, with limits of this many milliseconds. Returns whether it passes, and what
/// it says.
fn explored(name: &str, runs: u32, limit: u32) -> (bool, String) {
    let ran = explorer(name, runs, limit).output().unwrap();
    (ran.status.success(), String::from_utf8(ran.stderr).unwrap())
}

fn explorer(name: &str, runs: u32, limit: u32) -> Command {
    let mut command = Command::new(std::env::current_exe().unwrap());
    command
        .args(["--ignored", "--exact", &format!("run::{name}")])
        .env("YOVANELUM_EXPLORE", runs.to_string())
        .env("YOVANELUM_EXPLORE_JOBS", "1")
        .env("LIMIT", limit.to_string());
    command
}

/// Asserts that an order is found in which time passes, and that it comes back each time.
fn assert_found(name: &str) {
    let (passes, said) = explored(name, 500, 1000);
    assert!(!passes, "{said}");
    assert!(said.contains("  time passed at step "), "{said}");
    assert!(said.contains(" 5 of 5"), "{said}");
}

/// Asserts that no order fails, with limits of this many milliseconds.
fn assert_right(name: &str, runs: u32, limit: u32) {
    let (passes, said) = explored(name, runs, limit);
    let line = format!("explored {name}: all {runs} runs passed");
    assert!(passes && said.contains(&line), "{said}");
}

/// Asserts that no order fails where there is one alone, and that this is said.
fn assert_one_order(name: &str) {
    let (passes, said) = explored(name, 2, 1000);
    let line = format!("explored {name}: nothing was explored: there was one order alone");
    assert!(!passes && said.contains(&line), "{said}");
}

#[test]
fn bugs_of_limits_are_found() {
    for name in [
        "ready_within_a_limit",
        "asks_again",
        "taken_to_be_dead",
        "given_up_at_stop",
        "second_answer_is_late",
    ] {
        assert_found(name);
    }
}

#[test]
fn bugs_of_sleeps_and_intervals_are_found() {
    for name in [
        "leaves_when_idle",
        "flushed_in_between",
        "evicted_before_it_is_read",
        "published_too_early",
        "two_leaders",
        "listens_by_then",
    ] {
        assert_found(name);
    }
}

#[test]
fn no_limit_ends_since_a_run_is_slow() {
    for name in [
        "limit_of_a_game",
        "limit_on_workers",
        "limit_by_a_sleep",
        "limit_put_off",
        "deadline_of_many",
        "limit_beside_ticks",
    ] {
        assert_right(name, 40, 250);
    }
    assert_right("connections_end_in_time", 100, 100);
    assert_right("connections_take_three_quarters", 100, 200);
}

/// Each step takes 20 milliseconds, so that the game takes seconds by the machine's clock.
#[test]
fn the_clock_stands_still_while_tasks_are_held() {
    let ran = explorer("limit_of_a_game", 1, 250)
        .env("YOVANELUM_EXPLORE_PAUSE", "20000")
        .output()
        .unwrap();
    let said = String::from_utf8(ran.stderr).unwrap();
    assert!(ran.status.success(), "{said}");
}

#[test]
fn a_paused_clock_is_let_be() {
    assert_right("paused_clock", 40, 1000);
    assert_right("long_timeout", 40, 1000);
}

#[test]
fn a_test_that_waits_for_time_alone_does_not_hang() {
    assert_one_order("sleeps_beside_a_receive");
    assert_one_order("waits_for_a_limit");
}

#[test]
fn a_limit_ends_outside_of_its_runtime() {
    assert_one_order("limit_outside_of_its_runtime");
}
