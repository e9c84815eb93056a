//! The order of the account, and what isn't told, for small runs that are worked by hand.

use super::{Account, Level};
use yovanelum_record::sidecar::Sidecar;

/// Returns the account of a run: its channels, its entries with the stamps 1, 2, 3, .., and the
/// names beside it.
pub(super) fn account(channels: &[&str], entries: &[&str], names: &str) -> Account {
    let mut text = format!("ttd-journal 2\n{}\nsteps\n", channels.join("\n"));
    for (entry, stamp) in entries.iter().zip(1..) {
        text += &format!("{stamp} {entry}\n");
    }
    let names = Sidecar::read(names).unwrap();
    Account::read((text + "end\n").as_bytes(), &names).unwrap()
}

/// Returns the first line of each fact.
pub(super) fn heads(account: &Account) -> Vec<&str> {
    account
        .facts
        .iter()
        .map(|fact| fact.head.as_str())
        .collect()
}

/// Asserts that the facts have these first lines, and that the one with this index has these below
/// its first.
pub(super) fn assert_told(account: &Account, wanted: &[&str], index: usize, below: &[&str]) {
    assert_eq!(heads(account), wanted);
    let lines = [&wanted[index..=index], below].concat();
    assert_eq!(account.facts[index].text(), lines);
}

/// Returns the orders of the facts.
fn orders(account: &Account) -> Vec<u8> {
    account.facts.iter().map(|fact| fact.order).collect()
}

/// Four receivers lose values of a broadcast of one: actor 1 is told by `d` and then by `c`, actor
/// 2 by `b`, and `a` is dropped untold.
const FOUR: [&str; 12] = [
    "0 0 subscribe 0 = new 2",
    "0 0 subscribe 0 = new 3",
    "0 0 subscribe 0 = new 4",
    "0 0 send 0 0 = sent 4",
    "3 0 try-recv 1 = value 0",
    "0 0 send 0 1 = sent 4",
    "0 0 send 0 2 = sent 4",
    "1 0 recv 4 = lagged 2",
    "2 0 recv 2 = lagged 2",
    "1 0 recv 3 = lagged 2",
    "0 0 drop 1 = dropped",
    "0 0 drop 0 = dropped",
];

const FOUR_NAMES: &str =
    r#"{"channels": {"0": "bus"}, "handles": {"0": {"1": "a", "2": "b", "3": "c", "4": "d"}}, "#;

#[test]
fn what_the_failing_actor_was_told_last_comes_first() {
    // The panic of actor 1 is after its receive by `d`, and before that by `c`.
    let panics = r#""panics": [{"text": "", "location": null, "actor": 1, "since": 9}]}"#;
    let names = format!("{FOUR_NAMES}{panics}");
    let found = account(&["broadcast 1"], &FOUR, &names);
    let wanted = [
        "`d` lost 2 of 3 values of `bus` (capacity 1)",
        "`b` lost 2 of 3 values of `bus` (capacity 1)",
        "`c` lost 2 of 3 values of `bus` (capacity 1)",
        "`a` lost 1 of 3 values of `bus` (capacity 1)",
    ];
    assert_eq!(
        (heads(&found), orders(&found)),
        (wanted.into(), vec![2, 7, 7, 8])
    );
    // Without the panic, the loss that was told last is first.
    let found = account(
        &["broadcast 1"],
        &FOUR,
        &format!("{FOUR_NAMES}\"failed\": true}}"),
    );
    let closed = "`bus` closed, and 0 of 3 receivers were told";
    let wanted = [wanted[2], wanted[1], wanted[0], wanted[3], closed];
    assert_eq!(heads(&found), wanted);
    let rest = "and 1 more receiver lost 1 value, 1 channel closed";
    assert_eq!(found.rest.text().unwrap(), rest);
}

#[test]
fn of_two_panics_that_of_the_test_counts_first() {
    let panics = r#""panics": [{"text": "", "location": null, "actor": 2, "since": 9},
        {"text": "", "location": null, "actor": 1, "since": 10}]}"#;
    let found = account(&["broadcast 1"], &FOUR, &format!("{FOUR_NAMES}{panics}"));
    // Actor 2 fails right after its receive by `b`. Actor 1 was told last by `c`.
    assert_eq!(orders(&found), [2, 5, 7, 8]);
    let first = heads(&found).into_iter().map(|head| &head[..3]);
    assert!(first.eq(["`b`", "`c`", "`d`", "`a`"]));
    // The names say that the panic of actor 1 unwound the recorder.
    let names = format!("{FOUR_NAMES}\"ended_by\": 1, {panics}");
    let found = account(&["broadcast 1"], &FOUR, &names);
    assert_eq!(orders(&found), [2, 4, 5, 7, 8]);
    let wanted = [
        "`c` lost 2 of 3 values of `bus` (capacity 1)",
        "`actor 2` panicked",
        "`b` lost 2 of 3 values of `bus` (capacity 1)",
    ];
    assert_eq!(heads(&found)[..3], wanted);
}

#[test]
fn a_drop_after_the_panic_is_no_end_of_a_loss() {
    let panics = r#""locations": [["a.rs", 5, 9]], "actors": {"0": "main"},
        "panics": [{"text": "", "location": 0, "actor": 0, "since": 10}]}"#;
    let found = account(&["broadcast 1"], &FOUR, &format!("{FOUR_NAMES}{panics}"));
    let wanted = [
        "`a` lost 1 of 3 values of `bus` (capacity 1)",
        "  call 7      bus.send(value 2)   main  overwrote value 1, which a had not read",
        "  the panic   not told            main  a.rs:5   its last receive: call 5, value 0",
        "  lost: value 1",
    ];
    let text = found.facts.last().unwrap().text();
    // The second column of the first step is as wide as that of the other.
    let text: Vec<_> = text
        .iter()
        .map(|line| line.replace("main           overwrote", "main  overwrote"))
        .collect();
    assert_eq!(text, wanted);
    // The close at call 12 isn't told, since the drop of the sender is of the unwinding.
    assert!(found.facts.iter().all(|fact| fact.kind == "loss"));
}

#[test]
fn a_panic_that_was_caught_is_not_the_end() {
    // Actor 0 panics before it sends, so it has caught that. Its drop of `a` comes before its
    // second panic.
    let panics = r#""panics": [{"text": "", "location": null, "actor": 0, "since": 3},
        {"text": "", "location": null, "actor": 0, "since": 11}]}"#;
    let found = account(&["broadcast 1"], &FOUR, &format!("{FOUR_NAMES}{panics}"));
    let text = found.facts.last().unwrap().text();
    assert!(
        text[2].contains("call 11   dropped: never told"),
        "{text:#?}"
    );
}

#[test]
fn the_end_is_the_first_panic_after_which_its_actor_drops_alone() {
    // Actor 1 calls right before its panic. Actor 0 drops `a` and the sender after its own.
    for panics in [[(1, 10), (0, 12)], [(0, 10), (1, 12)]] {
        let panics = panics.map(|(actor, since)| {
            format!(r#"{{"text": "", "location": null, "actor": {actor}, "since": {since}}}"#)
        });
        let names = format!("{FOUR_NAMES}\"panics\": [{}]}}", panics.join(", "));
        let found = account(&["broadcast 1"], &FOUR, &names);
        let text = found.facts.last().unwrap().text();
        assert!(text[2].starts_with("  the panic   not told"), "{text:#?}");
    }
}

#[test]
fn a_test_that_returns_an_error_has_failed_there() {
    let names = r#""test": {"package": "", "target": "", "name": "x", "thread": "tests::x"}, "actors": {"1": "tests::x"},
        "locations": [["a.rs", 5, 9]], "returned": {"location": 0, "since": 9}}"#;
    let found = account(&["broadcast 1"], &FOUR, &format!("{FOUR_NAMES}{names}"));
    // The thread of the test was told by `d` before. What it was told by `c` came after.
    assert_eq!(orders(&found), [2, 7, 7, 8]);
    assert!(found.facts[0].head.starts_with("`d` lost"));
    let text = found.facts[3].text();
    assert!(
        text[2].starts_with("  the error   not told") && text[2].contains("a.rs:5"),
        "{text:#?}"
    );
}

#[test]
fn a_receiver_that_was_never_used_is_last_of_those_that_lost() {
    let entries = [
        "0 0 send 0 0 = sent 1",
        "0 0 send 0 1 = sent 1",
        "0 0 send 0 2 = sent 1",
        "0 1 send 0 0 = sent 1",
        "1 1 try-recv 1 = value 0",
        "0 1 send 0 1 = sent 1",
        "0 1 send 0 2 = sent 1",
        "0 2 send 0 1 = stored",
    ];
    let names = r#"{"channels": {"0": "metrics", "1": "orders", "2": "state"}, "handles": {"0": {"1": "held"}, "1": {"1": "desk"}}}"#;
    let channels = ["broadcast 1", "broadcast 1", "watch 0"];
    let found = account(&channels, &entries, names);
    assert_eq!(orders(&found), [8, 13, 13]);
    let wanted = [
        "`held` lost 2 of 3 values of `metrics` (capacity 1)",
        "  call 2    metrics.send(value 1)   actor 0  overwrote value 0, which held had not read",
        "  the end   held, never read",
        "  lost: value 0, value 1",
    ];
    assert_eq!(found.facts[1].text(), wanted);
    // It has made no call, but one that waits is of it.
    let names = r#"{"waiting": [{"actor": 1, "channel": 0, "handle": 1, "call": "recv", "since": 0, "location": null}]}"#;
    let found = account(&channels, &entries, names);
    assert_eq!(orders(&found), [8, 8, 13]);
}

#[test]
fn a_close_by_the_unwinding_is_no_fact() {
    let entries = [
        "0 0 send 0 0 = sent 1",
        "0 0 try-recv 1 = value 0",
        "0 0 drop 0 = dropped",
        "0 0 drop 1 = dropped",
    ];
    let closed = "channel 0 closed, and its receiver has not read that far";
    // The receiver was dropped, and had no more use for it.
    let found = account(&["broadcast 4"], &entries, "{}");
    assert!(found.facts.is_empty());
    for (since, wanted) in [(2, vec![]), (3, vec![closed])] {
        let names = format!(
            r#"{{"panics": [{{"text": "", "location": null, "actor": 0, "since": {since}}}]}}"#
        );
        let found = account(&["broadcast 4"], &entries, &names);
        assert_eq!(heads(&found), wanted);
        assert_eq!(
            found.nothing.unwrap(),
            "no value was lost in 4 calls on 1 channel"
        );
    }
}

#[test]
fn a_close_that_each_receiver_was_told_of_is_counted_beside_other_facts() {
    let entries = [
        "0 0 drop 0 = dropped",
        "1 0 recv 1 = closed",
        "0 1 drop 0 = dropped",
    ];
    let channels = ["broadcast 1", "broadcast 1"];
    let found = account(&channels, &entries, "{}");
    let wanted = [
        "channel 1 closed, and its receiver has not read that far",
        "channel 0 closed, and its receiver was told",
    ];
    let orders = (heads(&found), orders(&found));
    assert_eq!(orders, (wanted.into(), vec![14, 14]));
    assert_eq!((found.rest.after, found.rest.text()), (2, None));
    let found = account(&channels, &entries[..2], "{}");
    assert_eq!(heads(&found), wanted[1..]);
    assert_eq!((found.rest.after, found.rest.text()), (1, None));
}

/// Returns the levels of the facts.
fn levels(account: &Account) -> Vec<Level> {
    account.with_levels().map(|(level, _)| level).collect()
}

#[test]
fn a_close_that_ends_a_stream_is_told_after_all_else() {
    let entries = [
        "0 0 send 0 0 = sent 1",
        "0 0 drop 0 = dropped",
        "1 0 recv 1 = value 0",
        "1 0 recv 1 = closed",
        "0 1 drop 0 = dropped",
        "1 1 changed 1 = closed",
    ];
    let [nothing, stream] =
        [1, 0].map(|it| format!("channel {it} closed, and its receiver was told"));
    let found = account(&["broadcast 1", "watch 0"], &entries, "{}");
    assert_eq!(heads(&found), [&nothing, &stream]);
    assert_eq!(orders(&found), [14, 16]);
    assert_eq!(levels(&found), [Level::Warning, Level::Note]);
    let rest = (found.rest.after, found.rest.text());
    assert_eq!(rest, (1, Some("and 1 more channel closed".to_string())));
    // Alone, it is told. A receiver that wasn't told is another matter.
    let found = account(&["broadcast 1"], &entries[..4], "{}");
    assert_eq!(
        (heads(&found), levels(&found)),
        (vec![&*stream], vec![Level::Note])
    );
    let found = account(&["broadcast 1"], &entries[..3], "{}");
    assert_eq!(
        (orders(&found), levels(&found)),
        (vec![14], vec![Level::Warning])
    );
    // So is a change of a watch something that it carried, also where nobody looked.
    let changed = [
        "0 0 send 0 7 = stored",
        "0 0 drop 0 = dropped",
        "1 0 changed 1 = done",
        "1 0 changed 1 = closed",
    ];
    let found = account(&["watch 0"], &changed, "{}");
    assert_eq!(
        (orders(&found).last(), found.facts.last().unwrap().kind),
        (Some(&16), "closing")
    );
}

#[test]
fn a_wait_of_another_than_who_failed_is_no_error() {
    let waiting = r#""waiting": [{"actor": 1, "channel": 0, "handle": 1, "call": "recv", "since": 0, "location": null}]"#;
    let wait = "`channel 0: recv` of actor 1 waits: nothing was sent to channel 0";
    for (ending, level) in [
        (
            r#""panics": [{"text": "Elapsed(())", "location": null, "actor": 0, "since": 0}]"#,
            Level::Warning,
        ),
        (r#""hangs": true"#, Level::Error),
    ] {
        let found = account(&["broadcast 1"], &[], &format!("{{{waiting}, {ending}}}"));
        assert_eq!((heads(&found), levels(&found)), (vec![wait], vec![level]));
    }
}

#[test]
fn a_wait_that_only_the_unwinding_dropped_is_told_once() {
    let call = |handle: u32, more: &str| {
        format!(
            r#"{{"actor": 0, "channel": 0, "handle": {handle}, "call": "recv", "since": 0, "location": null{more}}}"#
        )
    };
    let over = r#", "until": 0, "waited": 50000"#;
    let waits = "`channel 0: recv` of actor 0 waits: nothing was sent to channel 0";
    let dropped =
        "`channel 0: recv` of actor 0 waited 50 ms and was dropped: nothing was sent to channel 0";
    let found = |waited: &str, dropped: &[String], text: &str| {
        let dropped = dropped.join(", ");
        let names = format!(
            r#"{{"waited_at_failure": [{waited}], "dropped_waits": [{dropped}],
            "panics": [{{"text": "{text}", "location": null, "actor": 0, "since": 0}}]}}"#
        );
        account(&["broadcast 1"], &[], &names)
    };
    let (waited, unwound) = (call(1, ""), call(1, over));
    let told = found(&waited, std::slice::from_ref(&unwound), "Elapsed(())");
    assert_eq!(heads(&told), [waits]);
    // One that was dropped before is another, and so is one where the failure is of no wait.
    let told = found(&waited, &[call(2, over), unwound.clone()], "Elapsed(())");
    assert_eq!(heads(&told), [dropped, waits]);
    let told = found(&waited, &[unwound], "left: 1");
    assert_eq!(heads(&told), [dropped]);
}

#[test]
fn a_call_that_waits_for_a_lock_is_told_whose_look_holds_it() {
    // Actor 1 looks twice, and takes the look that it holds before it waits on line 8.
    let entries = [
        "1 0 borrow 1 = value 0",
        "0 0 borrow 0 = value 0",
        "1 0 borrow 1 = value 0",
    ];
    let names = r#"{"hangs": true, "locations": [["a.rs", 7, 1], ["a.rs", 8, 1], ["a.rs", 9, 1]], "calls": {"0": [2, 0, 0]},
        "waiting": [{"actor": 1, "channel": 0, "handle": 0, "call": "send", "since": 3, "location": 1, "held_by": {"actor": 1, "location": 0}}]}"#;
    let found = account(&["watch 0"], &entries, names);
    let head = "`channel 0: send` of actor 1 waits: a look taken at a.rs:7 by actor 1 holds the lock of the value";
    let below = [
        "  call 3   channel 0: borrow()   actor 1  a.rs:7   holds the lock",
        "  call 3   channel 0: send       actor 1  a.rs:8   waits",
    ];
    assert_told(&found, &[head], 0, &below);
    // Of a look that nobody knows, or of another thread.
    let names = names.replace(
        r#""held_by": {"actor": 1, "location": 0}"#,
        r#""held_by": {"actor": null, "location": null}"#,
    );
    let head = "`channel 0: send` of actor 1 waits: another call holds the lock of the value";
    let below = ["  call 3   channel 0: send   actor 1  a.rs:8   waits"];
    assert_told(&account(&["watch 0"], &entries, &names), &[head], 0, &below);
}

#[test]
fn a_task_that_was_cancelled_is_told_from_one_that_ended() {
    let entries = ["1 0 drop 0 = dropped", "0 0 recv 1 = closed"];
    let ended = r#""panics": [{"text": "a row: Closed", "location": null, "actor": 0, "since": 2}], "failed": true,
        "dropped_in": {"0": {"0": "shop::import"}}"#;
    for (names, how, said) in [
        ("", "dropped", "in shop::import"),
        (
            r#", "cancelled": {"0": [0]}"#,
            "was cancelled and dropped",
            "cancelled in shop::import",
        ),
    ] {
        let found = account(&["broadcast 1"], &entries, &format!("{{{ended}{names}}}"));
        let head = format!(
            "receiver 1 was told Closed, since actor 1 {how} the last sender of channel 0 (call 1)"
        );
        let wanted = format!("  call 1   dropped the last sender   actor 1  {said}");
        let text = found.facts[0].text();
        assert_eq!((&text[0], text[1].trim_end()), (&head, &*wanted));
    }
}

#[test]
fn a_look_and_a_mark_are_two_facts() {
    // Receiver 1 looks at the values 1 and 2 by `borrow`, and asks whether there is a new one.
    // Receiver 2 does the same, but never asks. Receiver 3 awaits a change once both were made.
    let entries = [
        "0 0 subscribe 0 = new 2",
        "0 0 subscribe 0 = new 3",
        "0 0 send 0 1 = stored",
        "0 0 borrow 1 = value 1",
        "0 0 borrow 2 = value 1",
        "0 0 send 0 2 = stored",
        "0 0 borrow 1 = value 2",
        "0 0 has-changed 1 = flag yes",
        "0 0 borrow 2 = value 2",
        "0 0 changed 3 = done",
        "0 0 update 3 = value 2",
    ];
    let names = r#"{"handles": {"0": {"1": "asks", "2": "polls", "3": "awaits"}}, "channels": {"0": "state"},
        "waited": {"0": [10]}}"#;
    let found = account(&["watch 0"], &entries, names);
    let wanted = [
        "`awaits` never learned of 1 of 2 changes of `state`",
        "`asks` never marked 2 of 2 changes of `state` as seen",
    ];
    let below = [
        "  call 6    state.send(value 2)   actor 0  the last change",
        "  call 11   state.wait_for()      actor 0  its last look: value 2",
    ];
    assert_told(&found, &wanted, 0, &below);
}

#[test]
fn who_waits_for_a_value_asks_for_new_versions() {
    let entries = [
        "0 0 update 1 = value 0",
        "0 0 send 0 1 = stored",
        "0 0 borrow 1 = value 1",
    ];
    assert!(account(&["watch 0"], &entries, "{}").facts.is_empty());
    let found = account(&["watch 0"], &entries, r#"{"waited": {"0": [0]}}"#);
    let wanted = "receiver 1 never marked 1 of 1 change of channel 0 as seen";
    assert_eq!(heads(&found), [wanted]);
}

#[test]
fn who_never_learned_of_the_most_changes_is_told_first() {
    let entries = [
        "0 0 subscribe 0 = new 2",
        "0 0 send 0 1 = stored",
        "0 0 update 1 = value 1",
        "0 0 update 2 = value 1",
        "0 0 send 0 2 = stored",
        "0 0 update 1 = value 2",
        "0 0 send 0 3 = stored",
    ];
    let wanted = [
        "receiver 2 never learned of 2 of 3 changes of channel 0",
        "receiver 1 never learned of 1 of 3 changes of channel 0",
    ];
    assert_eq!(heads(&account(&["watch 0"], &entries, "{}")), wanted);
}

#[test]
fn changes_that_came_before_or_after_a_receiver_are_not_its_own() {
    let entries = [
        "0 0 send 0 1 = stored",
        "0 0 subscribe 0 = new 2",
        "0 0 borrow 2 = value 1",
        "0 0 send 0 2 = stored",
        "0 0 send 0 3 = stored",
        "0 0 borrow 2 = value 3",
        "0 0 modify 0 4 no = told no",
        "0 0 drop 2 = dropped",
        "0 0 send 0 5 = stored",
        "0 0 drop 1 = dropped",
        "0 0 send-replace 0 6 = old 5",
    ];
    let names = r#"{"handles": {"0": {"1": "held", "2": "polls"}}}"#;
    let found = account(&["watch 0"], &entries, names);
    // The one that never looked at all is last, though it missed more.
    let wanted = [
        "`polls` never learned of 1 of 2 changes of channel 0",
        "`held` never learned of 4 of 4 changes of channel 0",
    ];
    assert_eq!(heads(&found), wanted);
}

#[test]
fn what_is_not_known_is_said_first_and_nothing_is_denied() {
    let entries = ["0 0 send 0 0 = sent 1"];
    for (unrecorded, wanted) in [
        (
            r#""channels": 0, "left": 0, "calls": true, "handles": 0"#,
            "recording ended at call 1, before the test did",
        ),
        (
            r#""channels": 2, "left": 0, "calls": false, "handles": 0"#,
            "2 channels were not recorded, since 64 were alive",
        ),
        (
            r#""channels": 0, "left": 1, "calls": false, "handles": 0"#,
            "1 channel left the run for later ones",
        ),
        (
            r#""channels": 0, "left": 0, "calls": false, "handles": 1"#,
            "1 channel was recorded up to the 65536th sender or receiver",
        ),
        (
            r#""channels": 0, "left": 0, "calls": false, "handles": 0, "locked": 1"#,
            "1 channel was locked by the thread that ended the process",
        ),
    ] {
        let names = format!(r#"{{"unrecorded": {{{unrecorded}}}}}"#);
        let found = account(&["broadcast 4"], &entries, &names);
        assert_eq!(found.unknown, [wanted]);
        assert_eq!(
            found.nothing.unwrap(),
            "nothing was found in 1 call on 1 channel"
        );
    }
    assert!(account(&["broadcast 4"], &entries, "{}").unknown.is_empty());
}

#[test]
fn what_is_not_told_in_full_is_counted_by_kind() {
    let mut entries: Vec<_> = (2..=5)
        .map(|new| format!("0 0 subscribe 0 = new {new}"))
        .collect();
    entries.extend((0..2).map(|value| format!("0 0 send 0 {value} = sent 5")));
    entries.push("0 1 send 0 1 = stored".to_string());
    entries.extend((0..3).map(|channel| format!("0 {channel} drop 0 = dropped")));
    let entries: Vec<_> = entries.iter().map(String::as_str).collect();
    let found = account(&["broadcast 1", "watch 0", "broadcast 1"], &entries, "{}");
    assert_eq!(orders(&found), [13, 13, 13, 13, 13, 13, 14, 14, 14]);
    let wanted = "and 2 more receivers lost 2 values, 1 watch's reader never learned of 1 change, 3 channels closed";
    assert_eq!(found.rest.text().unwrap(), wanted);
}

/// No sizes here are special: what gives up above one of them says that there was no memory.
#[test]
fn a_long_run_is_told_as_a_short_one() {
    let mut entries: Vec<_> = (0..100_000)
        .map(|value| format!("0 0 send 0 {value} = sent 1"))
        .collect();
    entries.extend((1..=50_000).map(|value| format!("0 1 send 0 {value} = stored")));
    entries.extend((2..20_002).map(|new| format!("0 0 subscribe 0 = new {new}")));
    let entries: Vec<_> = entries.iter().map(String::as_str).collect();
    let found = account(&["broadcast 2", "watch 0"], &entries, "{}");
    let wanted = [
        "receiver 1 lost 99998 of 100000 values of channel 0 (capacity 2)",
        "receiver 1 never learned of 50000 of 50000 changes of channel 1",
    ];
    assert_eq!(heads(&found), wanted);
}

#[test]
fn a_call_that_waits_for_a_lock_names_whose_look_holds_it_and_not_who_waits() {
    let names = r#"{"channels": {"0": "state"}, "actors": {"0": "main", "1": "worker"}, "hangs": true,
        "locations": [["src/bus.rs", 8, 5], ["src/bus.rs", 9, 5]],
        "waiting": [{"actor": 1, "channel": 0, "handle": 0, "call": "send", "since": 1, "location": 1, "held_by": {"actor": 0, "location": 0}}]}"#;
    let found = account(&["watch 0"], &["0 0 borrow 1 = value 0"], names);
    let wanted = "worker in `state.send` since call 1, src/bus.rs:9, for a look taken at src/bus.rs:8 by main";
    assert_eq!(found.waiting[0].text, wanted);
    let head = heads(&found)[0];
    assert!(head.contains("src/bus.rs:8 by main"), "{head}");
}
