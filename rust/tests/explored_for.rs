//! A package outside of this one, whose tests never fail: an order is looked for in which a
//! condition is met, and pairs of steps are counted.
// It is built without optimization in either build of this test, so one of the two runs it.
#![cfg(all(target_os = "linux", debug_assertions))]

mod support;

use std::fs;
use std::path::Path;
use std::process::Output;
use std::sync::OnceLock;
use support::rounds;
use support::workspace::{Workspace, in_turn, printed};
use yovanelum::debugger::{Channel, Walk};

/// The audit lags where it receives nothing until the third shop has sent. Each shop looks once,
/// and sends if it sees what the shops before it sent.
const TESTS: &str = r#"
use std::thread;
use yovanelum::broadcast::error::RecvError;
use yovanelum::{Recorder, broadcast};

#[test]
fn orders_are_audited() {
    let recorder = Recorder::for_test("orders_are_audited");
    let (orders, mut rx) = broadcast::channel(2);
    recorder.name(&orders, "orders");
    let named = |name: &str| thread::Builder::new().name(name.to_string());
    let audit = named("audit").spawn(move || {
        loop {
            match rx.blocking_recv() {
                Ok(_) | Err(RecvError::Lagged(_)) => (),
                Err(RecvError::Closed) => return,
            }
        }
    });
    let shops = [0, 1, 2].map(|number| {
        let orders = orders.clone();
        let shop = move || {
            if orders.len() == number {
                orders.send(number).unwrap();
            }
        };
        named(&format!("shop {number}")).spawn(shop).unwrap()
    });
    for shop in shops {
        shop.join().unwrap();
    }
    drop(orders);
    audit.unwrap().join().unwrap();
    assert!(std::env::var_os("FAILS").is_none(), "it fails in each order");
}

#[test]
fn the_till_is_balanced() {
    let recorder = Recorder::for_test("the_till_is_balanced");
    let (orders, mut rx) = broadcast::channel(2);
    let shop = thread::Builder::new().name("shop".to_string());
    let shop = shop.spawn(move || orders.send(71).unwrap());
    rx.blocking_recv().unwrap();
    shop.unwrap().join().unwrap();
    // What it looks at is in no journal: a replay of one passes.
    assert!(recorder.replayed().is_some(), "the till is short");
}

#[test]
fn both_orders_arrive() {
    let recorder = Recorder::for_test("both_orders_arrive");
    let (of_ann, rx) = broadcast::channel(4);
    recorder.name(&of_ann, "orders");
    let of_bob = of_ann.clone();
    let shops = [("ann", of_ann), ("bob", of_bob)].map(|(name, orders)| {
        let shop = thread::Builder::new().name(name.to_string());
        shop.spawn(move || orders.send(71).is_ok()).unwrap()
    });
    for shop in shops {
        shop.join().unwrap();
    }
    assert_eq!(rx.len(), 2);
}
"#;

fn workspace() -> &'static Workspace {
    static WORKSPACE: OnceLock<Workspace> = OnceLock::new();
    WORKSPACE.get_or_init(|| Workspace::of_shop("explored-for", "bus", TESTS))
}

fn run(line: &str) -> Output {
    workspace().shell(line).output().unwrap()
}

/// Explores the test for a condition. Returns whether it passes, what it prints, and the JSON that
/// it writes to this file.
fn explored(condition: &str, more: &str, file: &str) -> (bool, String, String) {
    let out = workspace().0.join(file);
    let _ = fs::remove_file(&out);
    let line = format!(
        "YOVANELUM_EXPLORE=200 YOVANELUM_EXPLORE_FOR='{condition}' YOVANELUM_EXPLORE_OUT={} {more} cargo test --test bus orders_are",
        out.display()
    );
    let ran = run(&line);
    let json = fs::read_to_string(out).unwrap_or_default();
    (ran.status.success(), printed(&ran), json)
}

fn line_after<'a>(text: &'a str, start: &str) -> &'a str {
    let mut lines = text.lines().map(str::trim);
    let found = lines.find_map(|line| line.strip_prefix(start));
    found.unwrap_or_else(|| panic!("no `{start}` in {text}"))
}

/// Returns the number of the call that met the condition.
fn call(printed: &str) -> u64 {
    let met = line_after(printed, "yovanelum: met: lagging audit, at call ");
    met.split(':').next().unwrap().parse().unwrap()
}

/// Returns what the channel is at a place of a journal, and how far the audit lags there and one
/// place before.
fn state(journal: &Path, place: u64) -> (String, u64, u64) {
    let mut walk = Walk::open(&fs::read(journal).unwrap()).unwrap();
    let mut lag = |place| {
        assert!(walk.go_to(place));
        let Some(Channel::Broadcast(orders)) = walk.channel(0) else {
            panic!("channel 0 is a broadcast");
        };
        let lag = orders.receiver(1).unwrap().lag;
        (walk.state().to_string(), lag)
    };
    let ((_, before), (state, at)) = (lag(place - 1), lag(place));
    let (_, channel) = state.split_once('\n').unwrap();
    (channel.to_string(), at, before)
}

#[test]
fn a_receiver_that_can_lag_is_found_and_its_lines_bring_the_state_back() {
    let _turn = in_turn();
    let (passes, said, json) = explored("lagging audit", "", "met.json");
    assert!(!passes, "{said}");
    assert!(said.contains(" met `lagging audit`, in run "), "{said}");
    let place = call(&said);
    let made = ": `shop 2` made orders.send(its 3rd value) (tests/bus.rs:";
    assert!(said.contains(made), "{said}");
    let met = "\"for\": \"lagging audit\", \"isThere\": true, \"met\": {\"order\": ";
    assert!(json.contains(met), "{json}");
    assert!(json.contains(&format!("\"call\": {place}, ")), "{json}");
    assert!(json.ends_with("\"failure\": null}\n"), "{json}");
    let files = workspace().0.join("target/yovanelum/shop/test-bus");
    let wanted = state(&files.join("orders_are_audited.journal"), place);
    assert!(wanted.1 > 0 && wanted.2 == 0, "{wanted:?}");
    let replay = line_after(&said, "replay: ");
    for _ in 0..rounds(3, 20) {
        let ran = run(&format!("YOVANELUM_KEEP=1 {replay} --nocapture"));
        let replayed = printed(&ran);
        assert!(ran.status.success(), "{replayed}");
        assert_eq!(call(&replayed), place);
        let journal = files.join("orders_are_audited.replayed.journal");
        assert_eq!(state(&journal, place), wanted);
        fs::remove_file(journal).unwrap();
    }
    let again = line_after(&said, "again:  ");
    for _ in 0..3 {
        let ran = run(again);
        let found = printed(&ran);
        assert!(
            !ran.status.success() && found.contains(", in run 1 ("),
            "{found}"
        );
        assert_eq!(call(&found), place);
    }
}

#[test]
fn a_condition_that_no_run_meets_is_told_with_what_was_tried() {
    let _turn = in_turn();
    let (passes, said, json) = explored("unread audit 4", "", "not-met.json");
    assert!(passes, "{said}");
    let told = "explored orders_are_audited: no run met `unread audit 4`: all 200 runs passed, in ";
    assert!(said.contains(told), "{said}");
    assert!(said.contains(" orders without a switch passed"), "{said}");
    assert!(said.contains("50 guided"), "{said}");
    let told =
        "\"for\": \"unread audit 4\", \"isThere\": true, \"met\": null, \"failure\": null}\n";
    assert!(json.ends_with(told), "{json}");
}

#[test]
fn a_name_that_no_run_has_is_refused_with_those_that_there_are() {
    let _turn = in_turn();
    let (passes, said, json) = explored("lagging audti", "YOVANELUM_EXPLORE=8", "name.json");
    assert!(!passes, "{said}");
    let told = "`lagging audti` names nothing: the receivers of a broadcast are `audit`";
    let at_first = format!("orders_are_audited: in its first run {told}");
    let at_last = format!("explored orders_are_audited: {told}; ");
    assert!(
        said.contains(&at_first) && said.contains(&at_last),
        "{said}"
    );
    assert!(json.contains("\"isThere\": false, \"met\": null"), "{json}");
    let (_, said, _) = explored("closed audit", "YOVANELUM_EXPLORE=8", "kind.json");
    let told = "`closed audit` names nothing: the channels are `orders`";
    assert!(said.contains(told), "{said}");
}

#[test]
fn a_text_that_is_no_condition_is_refused_before_any_run() {
    let _turn = in_turn();
    for (text, fault) in [
        ("lagging", "and no condition: "),
        ("lags audit", "and no condition: "),
        ("unread audit many", "and no condition: "),
        ("reply late", "and no condition: "),
        ("unread audit 0", "which each run meets"),
    ] {
        let (passes, said, json) = explored(text, "", "text.json");
        assert!(!passes && json.is_empty(), "{said}");
        let told = format!("YOVANELUM_EXPLORE_FOR is `{text}`, {fault}");
        assert!(said.contains(&told), "{said}");
    }
}

#[test]
fn a_test_that_fails_before_the_condition_is_met_is_reported_as_one() {
    let _turn = in_turn();
    let (passes, said, json) = explored("lagging audit", "FAILS=1", "fails.json");
    assert!(!passes && said.contains("it fails in each order"), "{said}");
    assert!(
        said.contains("an order without a switch failed, in run 1 "),
        "{said}"
    );
    assert!(
        json.contains("\"met\": null, \"failure\": {\"order\": "),
        "{json}"
    );
    assert!(json.contains("\"failure\": \"tests/bus.rs:"), "{json}");
}

/// The schedule alone brings the failure back, so it is kept beside the journal. A run that follows
/// it writes a journal without one.
#[test]
fn the_line_of_a_run_by_a_schedule_names_the_journal_that_has_it() {
    let _turn = in_turn();
    let files = workspace().0.join("target/yovanelum/shop/test-bus");
    let journal = files.join("the_till_is_balanced.journal");
    let _ = fs::remove_file(&journal);
    let ran = run("YOVANELUM_EXPLORE=20 cargo test --test bus the_till");
    let said = printed(&ran);
    assert!(!ran.status.success(), "{said}");
    assert!(journal.with_extension("schedule").exists(), "{said}");
    let mut line = line_after(&said, "replay: ").to_string();
    let wanted = format!("YOVANELUM_REPLAY={} cargo test ", journal.display());
    for _ in 0..2 {
        assert!(line.starts_with(&wanted), "{line}");
        let ran = run(&line);
        let replayed = printed(&ran);
        assert!(!ran.status.success(), "{replayed}");
        let failed = "failed: the_till_is_balanced at tests/bus.rs:";
        assert!(
            replayed.contains(failed) && replayed.contains(": the till is short"),
            "{replayed}"
        );
        assert!(!replayed.contains("isn't replayed"), "{replayed}");
        line = line_after(&replayed, "replay: ").to_string();
    }
}

/// Nobody orders these runs, so the condition is one that each meets, or none.
#[test]
fn a_run_that_is_not_explored_says_whether_it_met_the_condition() {
    let _turn = in_turn();
    for (condition, told) in [
        ("closed orders", "yovanelum: met: closed orders, at call "),
        ("unread audit 4", "yovanelum: not met: unread audit 4\n"),
    ] {
        let ran = run(&format!(
            "YOVANELUM_EXPLORE_FOR='{condition}' cargo test --test bus orders_are"
        ));
        let said = printed(&ran);
        assert!(ran.status.success() && said.contains(told), "{said}");
    }
}

/// Ann and Bob send and drop their senders, in either order: 2 * 2 pairs. The test's thread makes
/// three calls before them or behind them, a clone, a look and a drop: 3 * 4 pairs in one order.
#[test]
fn a_session_says_how_many_pairs_of_steps_came_in_both_orders() {
    let _turn = in_turn();
    let out = workspace().0.join("covered.json");
    let _ = fs::remove_file(&out);
    let explored = |runs: u32| {
        let ran = run(&format!(
            "YOVANELUM_EXPLORE={runs} YOVANELUM_EXPLORE_OUT={} cargo test --test bus both_orders",
            out.display()
        ));
        let said = printed(&ran);
        assert!(ran.status.success(), "{said}");
        said + &fs::read_to_string(&out).unwrap()
    };
    for (runs, both) in [(1, 0), (40, 4)] {
        let said = explored(runs);
        for told in [
            format!("\n  covered: {both} of 16 pairs of steps came in both orders\n"),
            format!("\"pairs\": 16, \"pairsInBothOrders\": {both}, \"pairsAreCut\": false"),
        ] {
            assert!(said.contains(&told), "no `{told}` in {said}");
        }
    }
}
