//! Timers of tokio: a choice lets a short one end, and a run that is slow lets a long one end.

use crate::json::number;
use crate::{
    Program, assert_brought_back, assert_in_some_session, assert_one_order, assert_tells_time,
};

/// The timer is one of a task that could go on by a channel, so its runtime is never seen to wait
/// for it alone.
#[test]
fn a_limit_that_ends_where_a_service_is_late_is_found() {
    assert_in_some_session(|| {
        let lines = ["the service isn't ready"];
        assert_tells_time(&assert_brought_back("ready_within_a_limit", &lines, 10));
    });
}

#[test]
fn a_select_that_a_timer_wins_is_found() {
    // One leaves too early, or both where the machine's clock goes on.
    let lines = [
        "  time passed at step ",
        "  left: 1\n right: 2\n",
        "  left: 0\n right: 2\n",
    ];
    assert_in_some_session(|| {
        let (passes, said, _) = Program::new("leaves_when_idle").explored(500, "0");
        assert!(!passes, "{said}");
        let told = lines.iter().filter(|line| said.contains(**line)).count();
        assert!(told > 0, "{said}");
    });
}

#[test]
fn a_test_that_sleeps_on_workers_that_were_there_first_does_not_hang() {
    assert_one_order("sleeps_beside_a_receive", &[]);
}

/// Each step takes four milliseconds, so that the limit ends within the game. At half the speed it
/// ends after half as many steps.
#[test]
fn a_limit_that_ends_since_a_run_is_slow_is_told_as_time() {
    let slow = [
        ("LIMIT", "400"),
        ("YOVANELUM_EXPLORE_PAUSE", "4000"),
        ("YOVANELUM_EXPLORE_TIME", "never"),
    ];
    let program = Program::new("limit_of_a_game");
    let (passes, said, json) = program.explored_with(&slow, 1, "tr0");
    assert!(!passes && said.contains("within the limit"), "{said}");
    let line = "  timers of the machine's clock went on for ";
    assert!(said.contains(line), "{said}");
    assert_eq!(number(&json, "failedByTime"), 1, "{json}");
}
