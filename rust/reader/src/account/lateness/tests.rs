//! Why a receiver was late, of runs that are worked by hand.

use crate::account::Account;
use crate::account::tests::account;

/// A receiver of two values gets the first, and loses the next: call 5 overwrites what call 3 sent.
const CALLS: [&str; 6] = [
    "0 0 send 0 0 = sent 1",
    "1 0 recv 1 = value 0",
    "0 0 send 0 1 = sent 1",
    "0 0 send 0 2 = sent 1",
    "0 0 send 0 3 = sent 1",
    "1 0 recv 1 = lagged 1",
];

/// What is known of it, with these members of what was seen, and these tasks.
fn names(members: &str, tasks: &[&str]) -> String {
    let tasks = tasks.join(", ");
    format!(
        r#"{{"version": 5, "actors": {{"0": "feed", "1": "audit"}}, "values": {{"0": {{"0": "order 71"}}}},
        "locations": [["src/feed.rs", 20, 5], ["src/feed.rs", 31, 9], ["src/audit.rs", 18, 9], ["src/db.rs", 40, 21], ["src/backup.rs", 39, 5], ["src/import.rs", 77, 9]],
        "calls": {{"0": [0, 2, 0, 1, 1, 2]}},
        "tasks_seen": {{{members}, "now": 50000, "places": [{{"what": "recv", "location": 2, "own": true}}, {{"what": "Mutex::lock", "location": 3}},
            {{"what": "MutexGuard", "location": 4}}, {{"what": "Sleep", "location": 5}}, {{"what": ""}}, {{"what": "Sleep", "function": "shop::import"}}],
            "tasks": [{tasks}]}}}}"#
    )
}

fn of(members: &str, tasks: &[&str]) -> Account {
    account(&["broadcast 2"], &CALLS, &names(members, tasks))
}

fn late(account: &Account) -> Vec<&str> {
    let lines = account.facts[0].late.iter();
    lines.map(String::as_str).collect()
}

const TIMES: &str = r#""times": true"#;

/// Sends each value in a poll of its own.
const FEED: &str = r#"{"name": "feed", "actor": 0, "polls": [[0, 5, 0, 1, 0, [3]], [900, 905, 2, 3, 0, [3]], [1900, 1905, 3, 4, 0, [3]], [2900, 2905, 4, 5, 0, [3]]]}"#;

/// Woken by task 2, which releases the lock.
const WAITS: &str = r#"{"name": "audit", "actor": 1, "polls": [[10, 20, 1, 2, 0, [1], 12090, 5, "task 2", 2, 1], [12100, null, 5, 6, 0, []]]}"#;

const BACKUP: &str = r#"{"name": "backup", "polls": [[12080, 12095, 5, 5, 0, []]], "over": true}"#;

#[test]
fn it_waited_elsewhere() {
    let all = of(TIMES, &[FEED, WAITS, BACKUP]);
    let wanted = "from call 2 to call 5 its task waited 12 ms in Mutex::lock, src/db.rs:40; woken by backup, src/backup.rs:39";
    assert_eq!(late(&all), [wanted]);
    let text = all.facts[0].text();
    assert_eq!(text.last().unwrap(), &format!("  late: {wanted}"));
    assert!(
        all.to_json()
            .contains(&format!(r#""late": ["{wanted}"], "text": ["#))
    );
    // Without times, their order stays.
    let all = of(r#""times": false"#, &[FEED, WAITS, BACKUP]);
    assert_eq!(late(&all), [wanted.replace(" 12 ms", "")]);
}

#[test]
fn what_is_told_is_stored_and_said_again() {
    use yovanelum_record::sidecar::Sidecar;
    let before =
        [[100, 110], [200, 210]].map(|[begin, end]| format!("[{begin}, {end}, 0, 0, 0, [3]], "));
    let waits = WAITS.replace("[[10,", &format!("[{}[10,", before.concat()));
    let mut stored = Sidecar::read(&names(TIMES, &[FEED, &waits, BACKUP])).unwrap();
    let all = of(TIMES, &[FEED, &waits, BACKUP]);
    stored.keep_tasks_told(&all.told_of_tasks);
    let polls = &stored.tasks_seen.as_ref().unwrap().tasks[1].polls;
    assert_eq!(
        polls.len(),
        3,
        "one that ended before all calls is left out"
    );
    let again = account(&["broadcast 2"], &CALLS, &stored.to_json());
    assert_eq!(late(&again), late(&all));
}

#[test]
fn it_was_ready_and_another_ran() {
    // It waits for what it receives, which is no reason, and is woken by the next send.
    let audit = r#"{"name": "audit", "actor": 1, "polls": [[10, 20, 1, 2, 0, [0], 903, 3, "task 0", null, 0], [17000, null, 5, 6, 0, []]]}"#;
    let import =
        r#"{"name": "import", "polls": [[30, 40, 2, 2, 0, [3]], [906, 16900, 3, 5, 0, [3]]]}"#;
    let thread = FEED.replace(", 0, [3]]", ", 7, [3]]");
    let all = of(TIMES, &[&thread, audit, import]);
    let ready = "it was ready from call 3 on, and not polled until call 5";
    let ran = ": import ran 15 ms without giving way, from src/import.rs:77";
    assert_eq!(late(&all), [format!("{ready}{ran}")]);
    // On another thread it was in nobody's way.
    let elsewhere = import.replace("3, 5, 0, [3]", "3, 5, 7, [3]");
    let all = of(TIMES, &[&thread, audit, &elsewhere]);
    assert_eq!(late(&all), [ready]);
}

#[test]
fn who_ran_while_the_calls_were_made_is_said_however_long_the_thread_stood_after_that() {
    let audit = r#"{"name": "audit", "actor": 1, "polls": [[10, 20, 1, 2, 0, [0], 903, 3, "task 0", null, 0], [49000, null, 5, 6, 0, []]]}"#;
    let import =
        r#"{"name": "import", "polls": [[30, 40, 2, 2, 0, [3]], [50, 2906, 2, 5, 0, [3]]]}"#;
    // Its poll is the longest, and began after all calls.
    let after = r#"{"name": "late", "polls": [[3000, 40000, 5, 5, 0, [3]]]}"#;
    let thread = FEED.replace(", 0, [3]]", ", 7, [3]]");
    let all = of(TIMES, &[&thread, audit, import, after]);
    let ready = "it was ready from call 3 on, and not polled until call 5";
    let ran = "import ran 2 ms without giving way, from src/import.rs:77";
    assert_eq!(late(&all), [format!("{ready}: {ran}")]);
    // In two polls it gave way, and was run for a small part of the time.
    let twice = import.replace(
        "[50, 2906, 2, 5,",
        "[50, 2000, 2, 4, 0, [3]], [2100, 2906, 4, 5,",
    );
    let all = of(TIMES, &[&thread, audit, &twice, after]);
    assert_eq!(late(&all), [ready]);
}

#[test]
fn nobody_polled_it() {
    let audit = r#"{"name": "audit", "actor": 1, "within": 2, "polls": [[10, 20, 1, 2, 0, [0], 903, 3, "task 0", null, 0], [17000, null, 5, 6, 0, []]]}"#;
    let main = r#"{"name": "main", "polls": [[9, 21, 1, 2, 0, [3]], [950, 960, 3, 3, 0, [3]], [16990, null, 5, 6, 0, []]]}"#;
    let all = of(TIMES, &[FEED, audit, main]);
    assert_eq!(late(&all), ["nobody polled it after call 2"]);
}

#[test]
fn more_was_sent_in_one_poll_than_is_retained() {
    let feed = r#"{"name": "feed", "actor": 0, "polls": [[0, 5, 0, 1, 0, [3]], [900, 910, 2, 5, 0, [3]]]}"#;
    let audit = r#"{"name": "audit", "actor": 1, "polls": [[10, 20, 1, 2, 0, [0], 903, 3, "task 0", null, 0], [920, null, 5, 6, 0, []]]}"#;
    let sent = "feed sent 3 values in one poll (src/feed.rs:20 to 31)";
    let alone = of(TIMES, &[feed, audit]);
    assert_eq!(late(&alone), [format!("{sent}, which gives nobody a turn")]);
    // On a thread of its own the receiver had a turn, and was as fast as it could.
    let beside = of(TIMES, &[feed, &audit.replace(", 0, [", ", 1, [")]);
    assert_eq!(late(&beside), [sent]);
}

#[test]
fn what_woke_the_sender_is_told_with_what_it_sent_at_once() {
    let feed = |woken: &str| {
        let woken = woken.replace('\'', "\"");
        format!(
            r#"{{"name": "feed", "actor": 0, "polls": [[0, 5, 0, 1, 0, [3], {woken}], [900, 910, 2, 5, 0, [3]]]}}"#
        )
    };
    let audit = r#"{"name": "audit", "actor": 1, "polls": [[10, 20, 1, 2, 0, [0], 903, 3, "task 0", null, 0], [920, null, 5, 6, 0, []]]}"#;
    let sent = "feed sent 3 values in one poll (src/feed.rs:20 to 31), which gives nobody a turn";
    let by_timer = of(TIMES, &[&feed("899, 2, 'timer', null, 3"), audit]);
    let woken = "feed was woken by a timer; it waited in Sleep, src/import.rs:77";
    assert_eq!(late(&by_timer), [sent, woken]);
    let by_audit = of(TIMES, &[&feed("899, 2, 'task 1', null, 3"), audit]);
    let woken = "feed was woken by audit; it waited in Sleep, src/import.rs:77";
    assert_eq!(late(&by_audit), [sent, woken]);
    let unknown = of(TIMES, &[&feed("899, 2, 'somebody', null, 3"), audit]);
    assert_eq!(late(&unknown), [sent]);
}

#[test]
fn it_worked_itself() {
    let audit = r#"{"name": "audit", "actor": 1, "polls": [[10, 14900, 1, 5, 1, [0], 14000, 5, "task 0", null, 0], [14910, null, 5, 6, 1, []]]}"#;
    let all = of(TIMES, &[FEED, audit]);
    assert_eq!(
        late(&all),
        ["it worked on \"order 71\": 14 ms in its own poll, after src/audit.rs:18"]
    );
}

#[test]
fn its_own_task_sent() {
    let both = CALLS.map(|call| call.replacen("1 0 recv", "0 0 recv", 1));
    let both: Vec<_> = both.iter().map(String::as_str).collect();
    let main = r#"{"name": "main", "actor": 0, "polls": [[0, null, 0, 6, 0, []]]}"#;
    let all = account(&["broadcast 2"], &both, &names(TIMES, &[main]));
    assert_eq!(
        late(&all),
        ["its own task sent 3 values before it received"]
    );
    // Two more, after the one that overwrote the first.
    let mut calls = both.clone();
    calls.splice(4.., [both[4]; 3]);
    calls.push("0 0 recv 1 = lagged 3");
    let names = names(TIMES, &[&main.replace("0, 6", "0, 8")]);
    let names = names.replace("1, 1, 2]", "1, 1, 1, 1, 2]");
    let all = account(&["broadcast 2"], &calls, &names);
    assert_eq!(
        late(&all),
        ["its own task sent 5 values before it received"]
    );
}

#[test]
fn what_is_not_known_is_not_said() {
    assert_eq!(
        late(&of(TIMES, &[FEED])),
        ["it isn't polled by a task that is seen"]
    );
    // Two tasks of one name, of which none is known to have received.
    let other = r#"{"name": "audit", "actor": 1, "polls": [[10, 20, 7, 7, 0, []]]}"#;
    assert_eq!(
        late(&of(TIMES, &[other, other])),
        ["it isn't polled by a task that is seen"]
    );
    let unknown = WAITS.replace(
        "[1], 12090, 5, \"task 2\", 2, 1]",
        "[4], 12090, 5, \"somebody\", null, null]",
    );
    let since = r#""times": true, "unknown_since": 2"#;
    let wanted = "from call 2 to call 5 its task waited 12 ms, where isn't known, since tasks wait so often from call 2 on";
    assert_eq!(late(&of(since, &[FEED, &unknown])), [wanted]);
    let names = r#"{"actors": {"0": "feed", "1": "audit"}}"#;
    assert!(
        account(&["broadcast 2"], &CALLS, names).facts[0]
            .late
            .is_empty()
    );
}

#[test]
fn a_function_stands_for_lines_that_are_not_there() {
    let waits = WAITS.replace(
        "[1], 12090, 5, \"task 2\", 2, 1]",
        "[5], 12090, 5, \"timer\", null, 5]",
    );
    let wanted =
        "from call 2 to call 5 its task waited 12 ms in Sleep, in shop::import; woken by a timer";
    assert_eq!(late(&of(TIMES, &[FEED, &waits])), [wanted]);
    let waits = waits.replace("\"timer\", null, 5]", "\"task 2\", 5, 5]");
    let wanted = "from call 2 to call 5 its task waited 12 ms in Sleep, in shop::import; woken by backup, in shop::import";
    assert_eq!(late(&of(TIMES, &[FEED, &waits, BACKUP])), [wanted]);
}

#[test]
fn waits_at_one_place_are_told_together_and_short_ones_are_not() {
    let waits = r#"{"name": "audit", "actor": 1, "polls": [[10, 20, 1, 2, 0, [1], 4020, 3, "timer", null, 1], [4030, 4040, 3, 3, 0, [1], 8040, 4, "timer", null, 1],
        [8050, 8060, 4, 4, 0, [3], 8160, 4, "timer", null, 3], [8170, 8180, 4, 4, 0, [1], 12090, 5, "timer", null, 1], [12100, null, 5, 6, 0, []]]}"#;
    let wanted = "from call 2 to call 5 its task waited 11 ms (3 times) in Mutex::lock, src/db.rs:40; woken by a timer";
    assert_eq!(late(&of(TIMES, &[FEED, waits])), [wanted]);
}

#[test]
fn a_hang_has_a_line_for_each_task_that_waits_elsewhere() {
    let calls = ["0 0 send 0 0 = sent 1", "1 0 recv 1 = value 0"];
    let feed = r#"{"name": "feed", "actor": 0, "polls": [[0, 5, 0, 1, 0, [3], 900, 1, "timer", null, 3], [910, 920, 2, 2, 0, [1]]]}"#;
    let audit = r#"{"name": "audit", "actor": 1, "polls": [[10, 20, 1, 3, 0, [0]]]}"#;
    let names = names(TIMES, &[feed, audit, BACKUP]).replacen(
        '{',
        r#"{"hangs": true, "waiting": [{"actor": 1, "channel": 0, "handle": 1, "call": "recv", "since": 2, "location": 2}], "#,
        1,
    );
    let names = names.replace("[0, 2, 0, 1, 1, 2]", "[0, 2]");
    let all = account(&["broadcast 2"], &calls, &names);
    assert_eq!(
        late(&all),
        ["from call 2 on feed waited 49 ms in Mutex::lock, src/db.rs:40"]
    );
    let tasks = all.pending.iter().map(|task| task.text.as_str());
    let wanted =
        "feed in Mutex::lock, src/db.rs:40, since call 2, for 49 ms; last woken by a timer";
    assert_eq!(tasks.collect::<Vec<_>>(), [wanted]);
    assert!(all.to_json().contains(&format!(
        r#"{{"name": "feed", "actor": 0, "since": 2, "text": "{wanted}"}}"#
    )));
}

#[test]
fn a_wake_for_something_else_ends_no_wait() {
    // A timer that it had used before wakes it, and it still waits for the lock.
    let waits = r#"{"name": "audit", "actor": 1, "polls": [[10, 20, 1, 2, 0, [1, 3], 2020, 4, "timer", null, 3], [2030, 2040, 4, 4, 0, [1], 12090, 5, "task 2", 2, 1], [12100, null, 5, 6, 0, []]]}"#;
    let wanted = "from call 2 to call 5 its task waited 12 ms (2 times) in Mutex::lock, src/db.rs:40; woken by backup, src/backup.rs:39";
    assert_eq!(late(&of(TIMES, &[FEED, waits, BACKUP])), [wanted]);
    // Of several places it is the one by which it was woken, if it waits at none of them again.
    let either = WAITS.replace("[1], 12090", "[3, 1], 12090");
    let wanted = wanted.replace(" (2 times)", "");
    assert_eq!(late(&of(TIMES, &[FEED, &either, BACKUP])), [wanted]);
}
