//! How many pairs of steps came in both orders, in programs whose pairs are counted by hand.

use crate::Program;
use crate::json::number;

/// Explores a right program in so many runs, in one process or more beside each other. Returns how
/// many pairs there were and how many came in both orders, and asserts that it says the same.
fn covered(name: &'static str, runs: u64, jobs: &str) -> (u64, u64) {
    let jobs = [("YOVANELUM_EXPLORE_JOBS", jobs)];
    let (passes, said, json) = Program::new(name).explored_with(&jobs, runs, "0");
    assert!(passes, "{said}");
    let (pairs, both) = (number(&json, "pairs"), number(&json, "pairsInBothOrders"));
    let line = format!("\n  covered: {both} of {pairs} pairs of steps came in both orders\n");
    assert!(said.contains(&line), "no `{line}` in {said}");
    assert!(json.contains("\"pairsAreCut\": false"), "{json}");
    (pairs, both)
}

/// Ann, Bob and Cara have two steps each: a call, and the drop of the handle. Of two of them there
/// are 2 * 2 = 4 pairs, so of all three 12, and each may come in both orders. The test's thread has
/// one step more, the clone of the sender, before it starts them: 1 * 6 pairs in one order. These
/// are 18, of which 12 can come in both orders.
const PAIRS_OF_THREE: u64 = 18;
const BOTH_OF_THREE: u64 = 12;

#[test]
fn one_run_has_each_pair_in_one_order() {
    assert_eq!(covered("two_sends_and_a_look", 1, "1"), (PAIRS_OF_THREE, 0));
}

/// The six orders of three threads are those without a switch, which come first.
#[test]
fn all_orders_have_each_pair_in_both_that_can_come_so() {
    let wanted = (PAIRS_OF_THREE, BOTH_OF_THREE);
    assert_eq!(covered("two_sends_and_a_look", 40, "1"), wanted);
}

#[test]
fn runs_beside_each_other_are_counted_as_one_session() {
    let wanted = (PAIRS_OF_THREE, BOTH_OF_THREE);
    assert_eq!(covered("two_sends_and_a_look", 40, "3"), wanted);
}

#[test]
fn more_runs_have_no_fewer_pairs_in_both_orders() {
    let both = [1, 2, 3, 4, 40].map(|runs| covered("two_sends_and_a_look", runs, "1").1);
    assert!(both.is_sorted() && both[0] < both[4], "{both:?}");
}

/// Ann sends and drops her sender. Bob receives and drops his receiver. If he comes first, he
/// waits, and receives by a second step when he is woken. So there are 2 * 3 pairs. Bob's second
/// step and his drop come behind her send in each order, so 4 can come in both.
#[test]
fn what_a_step_causes_is_behind_it_in_each_order() {
    assert_eq!(covered("one_waits", 40, "1"), (6, 4));
}

#[test]
fn where_nobody_shares_a_channel_it_says_so() {
    let (passes, said, json) = Program::new("nobody_shares").explored(10, "0");
    let line = "\n  covered: no pairs of steps, since no channel was used by two actors\n";
    assert!(passes && said.contains(line), "{said}");
    let wanted = "\"pairs\": 0, \"pairsInBothOrders\": 0, \"pairsAreCut\": false";
    assert!(json.contains(wanted), "{json}");
}

/// Where no run has begun, nothing is known of its channels.
#[test]
fn without_a_run_it_says_nothing() {
    let none = [("YOVANELUM_EXPLORE_SECONDS", "0")];
    let (_, said, _) = Program::new("nobody_shares").explored_with(&none, 10, "0");
    assert!(
        said.contains(": all 0 runs passed") && !said.contains("covered:"),
        "{said}"
    );
}

/// A session that fails says how it does, and its JSON has the pairs of the runs up to there.
#[test]
fn a_session_that_fails_has_its_pairs_in_the_json() {
    let (passes, said, json) = Program::new("double_claim").explored(100, "0");
    assert!(!passes && !said.contains("covered:"), "{said}");
    assert!(number(&json, "pairs") > 0, "{json}");
}
