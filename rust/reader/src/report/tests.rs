//! The whole text for runs of each kind. The runs are small, and their texts are worked by hand.

use super::Report;
use yovanelum_record::journal::Run;
use yovanelum_record::sidecar::Sidecar;

/// Returns the text on a run: its channels, its entries without stamps, and the names beside it.
fn said(channels: &[&str], entries: &[&str], names: &str) -> String {
    said_of(&journal(channels, entries), names)
}

fn said_of(journal: &str, names: &str) -> String {
    let names = Sidecar::read(names).unwrap();
    let report = Report::new(journal.as_bytes(), &names).unwrap();
    let look = yovanelum_record::look::at_call(report.call());
    report.text(Some(look), false)
}

/// Returns the journal text with these entries, which have the stamps 1, 2, 3, ..
fn journal(channels: &[&str], entries: &[impl AsRef<str>]) -> String {
    let mut text = format!("ttd-journal 2\n{}\nsteps\n", channels.join("\n"));
    for (entry, stamp) in entries.iter().zip(1..) {
        text += &format!("{stamp} {}\n", entry.as_ref());
    }
    text + "end\n"
}

/// A ticker sends five prices on a broadcast of two, and an auditor reads late.
const LATE: [&str; 11] = [
    "0 0 send 0 0 = sent 1",
    "0 0 send 0 1 = sent 1",
    "0 0 send 0 2 = sent 1",
    "0 0 send 0 3 = sent 1",
    "0 0 send 0 4 = sent 1",
    "0 0 drop 0 = dropped",
    "1 0 recv 1 = lagged 3",
    "1 0 recv 1 = value 3",
    "1 0 recv 1 = value 4",
    "1 0 recv 1 = closed",
    "1 0 drop 1 = dropped",
];

const ALL_NAMES: &str = r#"{"version": 2, "actors": {"0": "ticker", "1": "auditor"}, "channels": {"0": "prices"},
    "values": {"0": {"0": "101 EUR", "1": "102 EUR", "2": "103 EUR", "3": "104 EUR", "4": "105 EUR"}},
    "locations": [["tests/bus.rs", 15, 9], ["tests/bus.rs", 22, 25]],
    "calls": {"0": [0, 0, 0, 0, 0, null, 1, 1, 1, 1, null]}}"#;

#[test]
fn a_loss_that_was_told() {
    let wanted = r#"error: `auditor` lost 3 of 5 values of `prices` (capacity 2)
  --> tests/bus.rs:22:25
note: call 3, the send that overwrote the first of them
  --> tests/bus.rs:15:9
  call 3   prices.send("103 EUR")   ticker   tests/bus.rs:15   overwrote "101 EUR", which auditor had not read
  call 7   told: lagged 3           auditor  tests/bus.rs:22   its last receive: none before
  lost: "101 EUR", "102 EUR", "103 EUR"
and 1 channel closed
look: at call 3
"#;
    assert_eq!(said(&["broadcast 2"], &LATE, ALL_NAMES), wanted);
}

#[test]
fn a_test_that_returns_an_error_may_have_made_no_call_itself() {
    let names = r#"{"version": 3, "returned": {"location": null, "since": 8}, "actors": {"0": "ticker", "1": "auditor"},
        "test": {"package": "bus", "target": "test-bus", "name": "no_price_is_missing", "thread": "no_price_is_missing"}}"#;
    let failed = "failed: no_price_is_missing returned an error\n";
    assert!(said(&["broadcast 2"], &LATE, names).starts_with(failed));
}

#[test]
fn without_a_name_a_channel_is_called_by_its_place() {
    let names = ALL_NAMES.replace(r#""channels": {"0": "prices"}"#, r#""channels": {}"#);
    let names = names.replace(r#""calls""#, r#""made": {"0": {"0": 2, "1": 2}}, "calls""#);
    let names = names.replace("22, 25]]", r#"22, 25], ["tests/bus.rs", 9, 26]]"#);
    let wanted = r#"error: `auditor` lost 3 of 5 values of the channel of tests/bus.rs:9 (capacity 2)
  --> tests/bus.rs:22:25
note: call 3, the send that overwrote the first of them
  --> tests/bus.rs:15:9
  call 3   channel of tests/bus.rs:9: send("103 EUR")   ticker   tests/bus.rs:15   overwrote "101 EUR", which auditor had not read
  call 7   told: lagged 3                               auditor  tests/bus.rs:22   its last receive: none before
  lost: "101 EUR", "102 EUR", "103 EUR"
and 1 channel closed
look: at call 3
"#;
    assert_eq!(said(&["broadcast 2"], &LATE, &names), wanted);
}

#[test]
fn without_names_there_are_numbers() {
    let wanted = "\
error: receiver 1 lost 3 of 5 values of channel 0 (capacity 2)
  call 3   channel 0: send(value 2)   actor 0  overwrote value 0, which receiver 1 had not read
  call 7   told: lagged 3             actor 1  its last receive: none before
  lost: value 0, value 1, value 2
and 1 channel closed
look: at call 3
";
    assert_eq!(said(&["broadcast 2"], &LATE, "{}"), wanted);
}

#[test]
fn names_of_the_first_version_have_no_locations() {
    let names =
        r#"{"actors": {"0": "ticker", "1": "auditor"}, "channels": {"0": "prices"}, "values": {}}"#;
    let wanted = "\
error: `auditor` lost 3 of 5 values of `prices` (capacity 2)
  call 3   prices.send(value 2)   ticker   overwrote value 0, which auditor had not read
  call 7   told: lagged 3         auditor  its last receive: none before
  lost: value 0, value 1, value 2
and 1 channel closed
look: at call 3
";
    assert_eq!(said(&["broadcast 2"], &LATE, names), wanted);
}

/// One thread sends on a broadcast of three, which retains four, and reads by two receivers. One is
/// dropped while it lags, and one lags at the end. The third value of those retained is the last
/// that each received.
const UNTOLD: [&str; 13] = [
    "0 0 subscribe 0 = new 2",
    "0 0 send 0 0 = sent 2",
    "0 0 try-recv 1 = value 0",
    "0 0 try-recv 2 = value 0",
    "0 0 send 0 1 = sent 2",
    "0 0 send 0 2 = sent 2",
    "0 0 send 0 3 = sent 2",
    "0 0 send 0 4 = sent 2",
    "0 0 send 0 5 = sent 2",
    "0 0 send 0 6 = sent 2",
    "0 0 drop 2 = dropped",
    "0 0 send 0 7 = sent 1",
    "0 0 subscribe 0 = new 3",
];

#[test]
fn a_loss_that_nobody_was_told_of() {
    let names = r#"{"version": 2, "actors": {"0": "main"}, "channels": {"0": "jobs"}, "handles": {"0": {"2": "log"}},
        "locations": [["src/lib.rs", 4, 1], ["src/lib.rs", 5, 1], ["src/lib.rs", 9, 1]],
        "made": {"0": {"0": 0, "1": 0, "2": 1}}, "calls": {"0": [1, 2, 2, 2, 2, 2, 2, 2, 2, 2, null, 2, 2]}}"#;
    let wanted = "\
error: receiver 1 (created at src/lib.rs:4) lost 3 of 8 values of `jobs` (capacity 3, which retains 4)
  --> src/lib.rs:9:1
  call 9    jobs.send(value 5)   main  src/lib.rs:9   overwrote value 1, which receiver 1 had not read
  the end   not told                                  its last receive: call 3, value 0
  lost: value 1, value 2, value 3
warning: `log` lost 2 of 7 values of `jobs` (capacity 3, which retains 4)
  --> src/lib.rs:9:1
  call 9    jobs.send(value 5)    main  src/lib.rs:9   overwrote value 1, which log had not read
  call 11   dropped: never told   main                 its last receive: call 4, value 0
  lost: value 1, value 2
look: at call 9
";
    assert_eq!(said(&["broadcast 3"], &UNTOLD, names), wanted);
}

/// A reader receives `Lagged(2)` and later `Lagged(1)`. Nobody receives the last value.
const SEVERAL: [&str; 10] = [
    "0 0 send 0 0 = sent 1",
    "0 0 send 0 1 = sent 1",
    "0 0 send 0 2 = sent 1",
    "1 0 recv 1 = lagged 2",
    "1 0 recv 1 = value 2",
    "0 0 send 0 3 = sent 1",
    "0 0 send 0 4 = sent 1",
    "1 0 recv 1 = lagged 1",
    "1 0 recv 1 = value 4",
    "0 0 send 0 5 = sent 1",
];

#[test]
fn of_several_losses_of_one_receiver_the_one_that_was_told_last_is_told() {
    let wanted = "\
error: `reader` lost 3 of 6 values of channel 0 (capacity 1) in two gaps; the last, of 1 value:
  call 7   channel 0: send(value 4)   actor 0  overwrote value 3, which reader had not read
  call 8   told: lagged 1             reader   its last receive: call 5, value 2
  lost: value 3
look: at call 7
";
    let names = r#"{"actors": {"1": "reader"}}"#;
    assert_eq!(said(&["broadcast 1"], &SEVERAL, names), wanted);
    // A task without a name is known by where it made its first call.
    let names = r#"{"actors": {"1": "task 17"}, "locations": [["a.rs", 3, 1]], "tasks": {"1": 0}}"#;
    let wanted = wanted
        .replace("`reader`", "`task 17` (a.rs:3)")
        .replace("reader   its", "task 17  its")
        .replace("reader", "task 17");
    assert_eq!(said(&["broadcast 1"], &SEVERAL, names), wanted);
}

#[test]
fn a_loss_of_a_receiver_that_lags_at_the_end() {
    let entries = [
        "0 0 send 0 0 = sent 1",
        "0 0 try-recv 1 = value 0",
        "0 0 send 0 1 = sent 1",
        "0 0 send 0 2 = sent 1",
        "0 0 send 0 3 = sent 1",
    ];
    let wanted = "\
error: receiver 1 lost 2 of 4 values of channel 0 (capacity 1)
  call 4    channel 0: send(value 2)   actor 0  overwrote value 1, which receiver 1 had not read
  the end   not told                            its last receive: call 2, value 0
  lost: value 1, value 2
look: at call 4
";
    assert_eq!(said(&["broadcast 1"], &entries, "{}"), wanted);
}

/// Returns who lost a value, if the entries are sends of a first actor, and reads of a second one.
fn first_words(entries: &[&str]) -> String {
    let names = r#"{"actors": {"0": "main", "1": "reader"}}"#;
    let said = said(&["broadcast 1"], entries, names);
    said.split(" lost ").next().unwrap().to_string()
}

#[test]
fn a_receiver_is_called_by_its_actor_where_that_only_reads_by_it() {
    let sends = ["0 0 send 0 0 = sent 1", "0 0 send 0 1 = sent 1"];
    let by_reader = [sends[0], sends[1], "1 0 recv 1 = lagged 1"];
    assert_eq!(first_words(&by_reader), "error: `reader`");
    // The actor sends on the channel too.
    let by_sender = [sends[0], sends[1], "0 0 recv 1 = lagged 1"];
    assert_eq!(first_words(&by_sender), "error: receiver 1");
    // The actor reads by another receiver too.
    let by_both = [
        "0 0 subscribe 0 = new 2",
        "0 0 send 0 0 = sent 2",
        "1 0 recv 2 = value 0",
        "0 0 send 0 1 = sent 2",
        "1 0 recv 1 = lagged 1",
    ];
    assert_eq!(first_words(&by_both), "error: receiver 1");
}

/// Returns the journal of 100 receivers of a broadcast of one. After each send, the next receiver
/// is told how many values it lost.
fn hundred() -> String {
    let mut entries: Vec<_> = (2..=100)
        .map(|receiver| format!("0 0 subscribe 0 = new {receiver}"))
        .collect();
    for receiver in 1..=100 {
        let (value, alive) = (receiver - 1, 101 - receiver);
        entries.push(format!("0 0 send 0 {value} = sent {alive}"));
        entries.push(match value {
            0 => "0 0 try-recv 1 = value 0".to_string(),
            lost => format!("0 0 try-recv {receiver} = lagged {lost}"),
        });
        entries.push(format!("0 0 drop {receiver} = dropped"));
    }
    journal(&["broadcast 1"], &entries)
}

#[test]
fn of_a_hundred_receivers_three_are_told_and_the_others_counted() {
    // The entries are 99 subscribes, and three for each value. Receivers 2 to 97 lost 1 to 96
    // values.
    let wanted = "\
error: receiver 100 lost 99 of 100 values of channel 0 (capacity 1)
  call 103   channel 0: send(value 1)   actor 0  overwrote value 0, which receiver 100 had not read
  call 398   told: lagged 99            actor 0  its last receive: none before
  lost: value 0, value 1, value 2, .. value 98
warning: receiver 99 lost 98 of 99 values of channel 0 (capacity 1)
  call 103   channel 0: send(value 1)   actor 0  overwrote value 0, which receiver 99 had not read
  call 395   told: lagged 98            actor 0  its last receive: none before
  lost: value 0, value 1, value 2, .. value 97
warning: receiver 98 lost 97 of 98 values of channel 0 (capacity 1)
  call 103   channel 0: send(value 1)   actor 0  overwrote value 0, which receiver 98 had not read
  call 392   told: lagged 97            actor 0  its last receive: none before
  lost: value 0, value 1, value 2, .. value 96
and 96 more receivers lost 4656 values
still waiting: actor 7 in `channel 0: closed` since the start; actor 8 in `channel 0: recv` since call 2, a.rs:3, which hasn't run since a value came (call 100); actor 9 in `channel 0: recv` since call 399; and 1 more
look: at call 103
";
    let names = r#"{"locations": [["a.rs", 3, 1]], "waiting": [
        {"actor": 7, "channel": 0, "handle": 0, "call": "closed", "since": 0, "location": null},
        {"actor": 8, "channel": 0, "handle": 9, "call": "recv", "since": 2, "location": 0},
        {"actor": 9, "channel": 0, "handle": 9, "call": "recv", "since": 999, "location": null},
        {"actor": 10, "channel": 0, "handle": 9, "call": "recv", "since": 999, "location": null}]}"#;
    let said = said_of(&hundred(), names);
    assert_eq!(said, wanted);
    assert_eq!(said.lines().count(), 15);
}

#[test]
fn a_close_that_was_told_and_one_that_nobody_has_read_up_to() {
    let entries = [
        "0 0 subscribe 0 = new 2",
        "0 0 subscribe 0 = new 3",
        "0 0 send 0 0 = sent 3",
        "1 0 recv 1 = value 0",
        "0 0 drop 0 = dropped",
        "2 0 recv 2 = value 0",
        "2 0 recv 2 = closed",
        "1 0 recv 1 = closed",
        "0 1 send 0 1 = stored",
        "0 1 drop 0 = dropped",
        "1 1 changed 1 = done",
    ];
    let names = r#"{"version": 2, "actors": {"0": "main", "1": "audit", "2": "screen"}, "channels": {"0": "orders", "1": "stop"},
        "locations": [["a.rs", 7, 1], ["a.rs", 9, 1]], "calls": {"0": [0, 0, 0, 1, null, 1, 1, 1], "1": [null]}}"#;
    let wanted = "\
warning: `orders` closed, and 2 of 3 receivers were told
  --> a.rs:9:1
  call 5   dropped the last sender   main
  call 7   told: closed              screen  a.rs:9   after 1 more value
  not that far: receiver 3
warning: `stop` closed, and its receiver has not read that far
  call 10   dropped the last sender   main
  not that far: receiver 1 (after 1 more change)
yovanelum: no value was lost in 11 calls on 2 channels
look: at call 5
";
    let channels = ["broadcast 4", "watch 0"];
    assert_eq!(said(&channels, &entries, names), wanted);
}

#[test]
fn changes_of_a_watch_that_a_receiver_never_learned_of() {
    let entries = [
        "0 0 send 0 1 = stored",
        "1 0 changed 1 = done",
        "1 0 update 1 = value 1",
        "0 0 send-replace 0 2 = old 1",
        "0 0 modify 0 3 no = told no",
        "0 0 modify 0 4 yes = told yes",
    ];
    let names = r#"{"version": 2, "actors": {"0": "main", "1": "worker"}, "channels": {"0": "state"},
        "values": {"0": {"1": "open", "4": "closing"}},
        "locations": [["a.rs", 7, 1], ["a.rs", 9, 1]], "calls": {"0": [0, 1, 1, 0, 0, 0]},
        "waiting": [{"actor": 1, "channel": 0, "handle": 1, "call": "wait_for", "since": 3, "location": 1}]}"#;
    let wanted = r#"error: `worker` never learned of 2 of 3 changes of `state`
  --> a.rs:7:1
note: call 3, its last look
  --> a.rs:9:1
  call 3   state.borrow_and_update()      worker  a.rs:9   its last look: "open"
  call 6   state.send_modify("closing")   main    a.rs:7   the last change
yovanelum: no value was lost in 6 calls on 1 channel
still waiting: worker in `state.wait_for` since call 3, a.rs:9
look: at call 6
"#;
    assert_eq!(said(&["watch 0"], &entries, names), wanted);
}

#[test]
fn where_nothing_is_found_the_text_says_so() {
    let entries = ["0 0 send 0 0 = sent 1", "0 0 try-recv 1 = value 0"];
    let wanted = "yovanelum: no value was lost in 2 calls on 2 channels\nlook: at call 2\n";
    let channels = ["broadcast 1", "watch 5"];
    assert_eq!(said(&channels, &entries, "{}"), wanted);
}

#[test]
fn names_of_another_run_do_no_harm() {
    let names = r#"{"version": 2, "actors": {"9": "x"}, "channels": {"7": "y"}, "handles": {"0": {"50": "z"}},
        "locations": [], "made": {"0": {"1": 4}}, "calls": {"0": [3]}, "tasks": {"0": 8},
        "waiting": [{"actor": 1, "channel": 5, "handle": 1, "call": "recv", "since": 3, "location": 1}]}"#;
    let wanted = said(&["broadcast 2"], &LATE, "{}");
    assert_eq!(said(&["broadcast 2"], &LATE, names), wanted);
}

/// Returns the text on a run for a terminal of this width.
fn drawn(channels: &[&str], entries: &[impl AsRef<str>], names: &str, width: usize) -> String {
    let names = Sidecar::read(names).unwrap();
    let run = Run::read(journal(channels, entries).as_bytes()).unwrap();
    let report = Report::on(&run, &names).unwrap();
    report.text_for_terminal("there".to_string(), (width, false), Some((&run, &names)))
}

#[test]
fn a_terminal_has_a_strip_of_the_receiver_that_lost() {
    let wanted = r#"error: `auditor` lost 3 of 5 values of `prices` (capacity 2)
  --> tests/bus.rs:22:25
note: call 3, the send that overwrote the first of them
  --> tests/bus.rs:15:9
  call 3   prices.send("103 EUR")   ticker   tests/bus.rs:15   overwrote "101
      EUR", which auditor had not read
  call 7   told: lagged 3           auditor  tests/bus.rs:22   its last receive:
      none before
  lost: "101 EUR", "102 EUR", "103 EUR"
  auditor  ▁▅█▒▒▒▒█▅▁▁
              ^   ^
  start to call 11; ^ call 3, call 7; ▒ overwritten
and 1 channel closed
look: there
"#;
    assert_eq!(drawn(&["broadcast 2"], &LATE, ALL_NAMES, 80), wanted);
}

#[test]
fn where_nothing_was_overwritten_a_strip_says_what_its_highest_level_is() {
    let entries = [
        "0 0 send 0 0 = sent 1",
        "0 0 send 0 1 = sent 1",
        "0 0 drop 0 = dropped",
        "1 0 recv 1 = value 0",
        "1 0 recv 1 = value 1",
        "1 0 recv 1 = closed",
    ];
    // A channel of 3 retains 4: one to receive is 7/4 of the 7 steps, and two are 14/4, rounded up.
    let wanted = "
  receiver 1  ▁▃▅▅▃▁▁
                 ^  ^
  start to call 6; ^ call 3, call 6; █ 4 to receive
";
    let text = drawn(&["broadcast 3"], &entries, "{}", 80);
    assert!(text.contains(wanted), "{text}");
}

#[test]
fn a_long_run_has_several_calls_a_column_and_keeps_within_eighty() {
    // 2 values are retained of 1,000, and the receiver reads none before the last call.
    let sends = (0..1000).map(|value| format!("0 0 send 0 {value} = sent 1"));
    let all: Vec<_> = sends.chain(["1 0 recv 1 = lagged 998".into()]).collect();
    let text = drawn(&["broadcast 2"], &all, "{}", 200);
    let lines: Vec<_> = text.lines().collect();
    let at = lines.iter().position(|it| it.contains('▒')).unwrap();
    // 66 columns beside the name would have 15.2 calls each, so they have 16: the start and 1,001
    // calls are 63 columns. In the first of them values are lost already, and in the last one too.
    let strip = format!("  receiver 1  {}", "▒".repeat(63));
    let marks = format!("{}^{}^", " ".repeat(14), " ".repeat(61));
    let caption = "  start to call 1001, 16 a column; ^ call 3, call 1001; ▒ overwritten";
    assert_eq!(lines[at..at + 3], [&strip, &marks, caption]);
}

#[test]
fn a_long_run_is_drawn_around_the_calls_of_the_fact() {
    let pair = |value: u64| {
        [
            format!("0 0 send 0 {value} = sent 1"),
            format!("1 0 recv 1 = value {value}"),
        ]
    };
    let late = [
        "0 0 send 0 1 = sent 1",
        "0 0 send 0 2 = sent 1",
        "0 0 send 0 3 = sent 1",
        "1 0 recv 1 = lagged 1",
        "1 0 recv 1 = value 2",
        "1 0 recv 1 = value 3",
    ];
    let before = (0..500).flat_map(pair);
    let all = before.chain(late.map(String::from));
    let all: Vec<_> = all.chain((0..500).flat_map(pair)).collect();
    let text = drawn(&["broadcast 2"], &all, "{}", 80);
    let lines: Vec<_> = text.lines().collect();
    let at = lines.iter().position(|it| it.contains('▒')).unwrap();
    // 66 columns: 48 before call 3, and it is told by the next one.
    let strip = format!("  receiver 1  {}▅█▒█▅▁{}", "▅▁".repeat(23), "▅▁".repeat(7));
    let marks = format!("{}^^", " ".repeat(14 + 48));
    let caption = "  call 955 to call 1020; ^ call 1003, call 1004; ▒ overwritten";
    assert_eq!(lines[at..at + 3], [&strip, &marks, caption]);
}

#[test]
fn a_watch_is_high_where_its_receiver_has_not_seen_the_value() {
    let entries = [
        "0 0 send 0 1 = stored",
        "1 0 update 1 = value 1",
        "0 0 send 0 2 = stored",
        "0 0 send 0 3 = stored",
        "1 0 drop 1 = dropped",
        "0 0 drop 0 = dropped",
    ];
    let text = drawn(&["watch 0"], &entries, "{}", 80);
    let strip = text.lines().find(|it| it.contains('█')).unwrap();
    assert_eq!(strip, "  receiver 1  ▁█▁██");
}

#[test]
fn a_fact_of_no_receiver_has_the_first_eight_of_its_channel() {
    let made = (2..11).map(|handle| format!("0 0 subscribe 0 = new {handle}"));
    let all: Vec<_> = made.chain(["0 0 drop 0 = dropped".into()]).collect();
    let text = drawn(&["broadcast 2"], &all, "{}", 80);
    let strips = text.lines().filter(|it| it.starts_with("  receiver "));
    let strips: Vec<_> = strips.collect();
    // Receiver 1 opens with the channel, receiver 2 is made by the first call, and so on.
    let wanted = (1..9).map(|handle| {
        let before = " ".repeat(handle - 1);
        format!("  receiver {handle}  {before}{}", "▁".repeat(12 - handle))
    });
    assert_eq!(strips, wanted.collect::<Vec<_>>());
    assert!(text.contains("\n  and 2 more\n"), "{text}");
}
