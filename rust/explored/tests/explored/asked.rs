//! A program of tasks that is explored for a condition.

use crate::json::{best_of_ten, number, text};
use crate::{Program, assert_in_some_session};
use std::collections::BTreeSet;

const FOR: &str = "YOVANELUM_EXPLORE_FOR";

/// The monitor lags in a few orders in which time passes, and fails as soon as it is told.
#[test]
fn a_monitor_that_lags_by_a_timer_is_found_by_a_guided_run() {
    assert_in_some_session(|| {
        let program = Program::new("heart_and_monitor");
        let found = [1000, 2000, 3000].map(|from| {
            let asked = (FOR, "lagging monitor");
            let (passes, said, json) = program.explored_with(&[asked], 60, &from.to_string());
            assert!(!passes, "{said}");
            assert!(
                said.contains("yovanelum: met: lagging monitor, at call "),
                "{said}"
            );
            assert!(said.contains("Lagged("), "{said}");
            assert!(json.contains("\"met\": null, \"failure\": {"), "{json}");
            (
                said.contains("a guided order failed"),
                number(&json, "runs"),
            )
        });
        // The second run of each session is guided.
        assert!(found.contains(&(true, 2)), "{found:?}");
    });
}

#[test]
fn a_task_that_can_lag_is_found_though_its_test_passes() {
    let program = Program::new("skipping_audit");
    let asked = (FOR, "lagging audit");
    let (passes, said, json) = program.explored_with(&[asked], 100, "4000");
    assert!(!passes, "{said}");
    assert!(said.contains(" met `lagging audit`, in run "), "{said}");
    assert_eq!(best_of_ten(&json), 10, "{json}");
    let (passes, said, again) = program.explored_with(&[asked], 1, &text(&json, "order"));
    assert!(!passes, "{said}");
    assert_eq!(number(&again, "call"), number(&json, "call"), "{again}");
    let mut replay = program.command();
    let replay = replay.env("YOVANELUM_REPLAY", text(&json, "journal"));
    let replay = replay.env(FOR, "lagging audit").output().unwrap();
    let said = crate::said(&replay);
    assert!(replay.status.success(), "{said}");
    let met = format!(
        "yovanelum: met: lagging audit, at call {}: ",
        number(&json, "call")
    );
    assert!(said.contains(&met) && !said.contains("look: "), "{said}");
}

#[test]
fn a_state_that_no_order_has_is_not_met() {
    let program = Program::new("biased_select");
    let asked = (FOR, "reply lagged");
    let (passes, said, _) = program.explored_with(&[asked], 40, "0");
    assert!(passes, "{said}");
    let told = "no run met `reply lagged`: all 40 runs passed";
    assert!(said.contains(told) && said.contains("10 guided"), "{said}");
}

/// Returns the text of a schedule without what its run has lost, which depends on the machine.
fn without_time(text: String) -> String {
    let lines = text.lines().filter(|line| !line.starts_with("lost "));
    lines.collect::<Vec<_>>().join("\n")
}

#[test]
fn a_guided_order_is_the_same_each_time() {
    for (name, condition) in [
        ("lag_of_33", "lagging handler"),
        ("subscribes_after_answer", "reply no-receivers"),
    ] {
        let program = Program::new(name);
        for seed in 0..4 {
            let order = format!("g{seed}.20");
            let schedules = (0..5).map(|_| program.schedule_for(&order, condition));
            let schedules: BTreeSet<_> = schedules.map(without_time).collect();
            assert_eq!(schedules.len(), 1, "{name} {order}: {schedules:?}");
        }
    }
}
