//! The whole table, by a command: how many runs find each bug from ten seeds on, how often the
//! journal and the schedule bring it back, and how many runs fail that nobody explores.

use crate::json::{hangs, number, of_ten, text};
use crate::natural::natural;
use crate::{PROGRAMS, Program};
use std::collections::{BTreeMap, BTreeSet};
use std::sync::Mutex;
use std::sync::atomic::{AtomicUsize, Ordering};
use std::time::Instant;
use std::{env, fs, thread};

/// How many replays are made of a failing run.
const REPLAYS: usize = 100;

/// How many of these run beside each other where each waits forever.
const BESIDE: usize = 20;

/// The programs that have a bug are those before this one.
pub const FIRST_RIGHT: &str = "chat_on_one_thread";

/// The programs that are meant.
pub fn programs() -> impl Iterator<Item = (&'static str, fn())> {
    let only = env::var("ONLY").ok();
    let is_meant = move |name: &str| {
        only.as_ref()
            .is_none_or(|only| only.split(',').any(|one| one == name))
    };
    PROGRAMS
        .iter()
        .copied()
        .filter(move |(name, _)| is_meant(name))
}

pub fn is_right(name: &str) -> bool {
    let at = |name: &str| PROGRAMS.iter().position(|(other, _)| *other == name);
    at(name) >= at(FIRST_RIGHT)
}

fn setting(variable: &str, default: u64) -> u64 {
    let text = env::var(variable).ok();
    text.map_or(default, |text| text.parse().unwrap())
}

/// Returns how busy the machine is.
pub fn load() -> String {
    let load = fs::read_to_string("/proc/loadavg").unwrap_or_default();
    load.split(' ').take(3).collect::<Vec<_>>().join(" ")
}

/// Prints a table with this head. Rows are made beside each other, and printed in their order.
fn print_table(head: &str, count: usize, row: impl Fn(usize) -> String + Sync) {
    println!("load {}", load());
    println!("| {head} |\n{}|", "|---".repeat(head.split(" | ").count()));
    let rows = Mutex::new((0, BTreeMap::new()));
    let next = AtomicUsize::new(0);
    let make = || {
        while let Some(index) = Some(next.fetch_add(1, Ordering::Relaxed)).filter(|it| *it < count)
        {
            let made = row(index);
            let mut rows = rows.lock().unwrap();
            let (printed, waiting) = &mut *rows;
            waiting.insert(index, made);
            while let Some(row) = waiting.remove(printed) {
                println!("| {row} |");
                *printed += 1;
            }
        }
    };
    thread::scope(|scope| {
        for _ in 0..setting("BESIDE", 1) {
            scope.spawn(make);
        }
    });
    println!("load {}", load());
}

/// `ONLY` names some of the programs, `EACH` says how many seconds each is run without being
/// explored, and `BESIDE` how many programs are tried beside each other.
#[test]
#[ignore = "it takes minutes"]
fn the_bugs() {
    let bugs: Vec<_> = programs().filter(|(name, _)| !is_right(name)).collect();
    let head = "Program | Found | Median | Replays | By choices | Free | With sleeps";
    print_table(head, bugs.len(), |index| row(bugs[index].0));
}

fn row(name: &'static str) -> String {
    let program = Program::new(name);
    let (_, _, json) = program.explored(500, "0");
    let search = number(&json, "runs");
    let journal = text(&json, "journal");
    let hangs = hangs(&json);
    let mut seeds: Vec<u64> = (1..=10)
        .map(|seed| from_seed(&program, seed * 1000))
        .collect();
    seeds.sort_unstable();
    let seconds = setting("EACH", 60);
    format!(
        "`{name}` | {search} | {} | {} of {REPLAYS} | {} | {} | {}",
        seeds[seeds.len() / 2],
        replays(&program, &journal, hangs),
        of_ten(&json)[1],
        grouped(&natural(name, false, seconds)),
        grouped(&natural(name, true, seconds))
    )
}

/// Returns a text whose last number, below a million, has a comma at its thousands.
fn grouped(text: &str) -> String {
    let digits = text.bytes().rev().take_while(u8::is_ascii_digit).count();
    if digits > 3 {
        format!("{},{}", &text[..text.len() - 3], &text[text.len() - 3..])
    } else {
        text.to_string()
    }
}

#[test]
fn thousands_have_a_comma() {
    let texts = ["0 of 10000", "20 of 1303", "20 of 692"].map(grouped);
    assert_eq!(texts, ["0 of 10,000", "20 of 1,303", "20 of 692"]);
}

/// Returns how many replays fail. Those that wait forever take no processor, so many do it beside
/// each other.
fn replays(program: &Program, journal: &str, hangs: bool) -> usize {
    let next = AtomicUsize::new(0);
    let failed = || {
        let own = std::iter::from_fn(|| {
            let is_next = next.fetch_add(1, Ordering::Relaxed) < REPLAYS;
            is_next.then(|| program.replayed(journal, hangs).fails(hangs))
        });
        own.filter(|fails| *fails).count()
    };
    thread::scope(|scope| {
        let beside = if hangs { BESIDE } else { 1 };
        let threads: Vec<_> = (0..beside).map(|_| scope.spawn(failed)).collect();
        let counts = threads.into_iter().map(|thread| thread.join().unwrap());
        counts.sum()
    })
}

/// Returns the number of runs from this seed on until one fails, or 501.
fn from_seed(program: &Program, seed: u64) -> u64 {
    let (passes, _, json) = program.explored(500, &seed.to_string());
    number(&json, "runs") + u64::from(passes)
}

/// Programs with a condition that some of their runs meet.
const CONDITIONS: [(&str, &str); 12] = [
    ("slow_handler", "lagging handler"),
    ("lag_of_33", "lagging handler"),
    ("heart_and_monitor", "lagging monitor"),
    ("resubscribe_gap", "reply lagged"),
    ("last_job_at_stop", "unread worker 3"),
    ("overtaken_router", "queue 0 4"),
    ("late_audit", "reply no-receivers"),
    ("check_then_send", "reply no-receivers"),
    ("leaves_after_answers", "reply no-receivers"),
    ("subscribes_after_answer", "reply no-receivers"),
    ("closed_pool", "reply no-receivers"),
    ("weak_plugin", "reply no-sender"),
];

/// Names an order, by a seed and by how many choices there are.
type Strategy = fn(u64, usize) -> String;

const STRATEGIES: [(&str, Strategy); 5] = [
    ("Guided", |seed, choices| format!("g{seed}.{choices}")),
    ("Random", |seed, _| format!("r{seed}")),
    ("PCT 2", |seed, choices| format!("p2.{seed}.{choices}")),
    ("PCT 3", |seed, choices| format!("p3.{seed}.{choices}")),
    ("POS", |seed, _| format!("o{seed}")),
];

/// Prints how many runs each strategy takes to meet a condition: the median of ten seeds, of `MOST`
/// runs at most.
#[test]
#[ignore = "it takes minutes"]
fn toward_a_state() {
    let only: Vec<_> = programs().map(|(name, _)| name).collect();
    let meant = CONDITIONS.iter().filter(|(name, _)| only.contains(name));
    let meant: Vec<_> = meant.collect();
    let names = STRATEGIES.map(|(name, _)| name).join(" | ");
    let head = format!("Program | Condition | {names}");
    print_table(&head, meant.len(), |index| {
        let (name, condition) = meant[index];
        row_of_condition(name, condition)
    });
}

impl Program {
    /// Runs the program by an order, as a session does that looks for a condition. Returns whether
    /// the run met it.
    fn meets(&self, condition: &str, order: &str) -> bool {
        let answer = self.folder.join("answer");
        let mut command = self.command_that_ends(20);
        let ran = command
            .env("YOVANELUM_EXPLORE_ORDER", order)
            .env("YOVANELUM_EXPLORE_FOR", condition)
            .env("YOVANELUM_EXPLORE_TARGET", &self.folder)
            .env("YOVANELUM_EXPLORE_ANSWER", &answer)
            .output();
        let said = crate::said(&ran.unwrap());
        let answer = fs::read_to_string(answer).unwrap_or_default();
        assert!(!answer.starts_with("unknown"), "{said}");
        answer.starts_with("met ")
    }
}

fn row_of_condition(name: &'static str, condition: &str) -> String {
    let program = Program::new(name);
    let first = program.schedule_for("s", "");
    let timers = if first.contains("\ntimers\n") {
        "t"
    } else {
        ""
    };
    let first = program.schedule_for(&format!("{timers}s"), "");
    let (_, steps) = first.split_once("\nsteps ").unwrap();
    let has_others = |step: &&str| step.split(' ').nth(1).is_some_and(|count| count != "1");
    let choices = steps.lines().skip(1).filter(has_others).count();
    let of_strategies = STRATEGIES.map(|(_, order)| {
        let mut runs: Vec<u64> = (1..=10)
            .map(|seed| {
                let order = |run| format!("{timers}{}", order(seed * 1000 + run, choices));
                let most = setting("MOST", 200);
                let met = (0..most).find(|run| program.meets(condition, &order(*run)));
                met.map_or(most + 1, |run| run + 1)
            })
            .collect();
        runs.sort_unstable();
        runs[runs.len() / 2].to_string()
    });
    format!("`{name}` | `{condition}` | {}", of_strategies.join(" | "))
}

#[test]
#[ignore = "it takes minutes"]
fn the_right_programs() {
    let right: Vec<_> = programs().filter(|(name, _)| is_right(name)).collect();
    print_table(
        "Program | Runs | A second | Chosen while a thread ran",
        right.len(),
        |index| {
            let (name, _) = right[index];
            let program = Program::new(name);
            let began = Instant::now();
            let (passes, said, json) = program.explored(1000, "0");
            let has_one_order = number(&json, "choices") == 0;
            assert!(passes || has_one_order, "{said}");
            let (runs, took) = (number(&json, "runs"), began.elapsed().as_secs_f64());
            let (a_second, restless) = (runs as f64 / took, number(&json, "restless"));
            format!("`{name}` | {runs} | {a_second:.0} | {restless}")
        },
    );
}

/// How long a step takes in which one is let go: what longer runs take longer, by what they have
/// more steps.
#[test]
#[ignore = "it is a measurement"]
fn what_a_choice_costs() {
    let program = Program::new("many_sends");
    let took = |sends: &str| {
        let began = Instant::now();
        let (passes, said, json) = program.explored_with(&[("SENDS", sends)], 100, "1");
        assert!(passes, "{said}");
        (began.elapsed().as_secs_f64(), number(&json, "steps") as f64)
    };
    let (short, long) = (took("10"), took("510"));
    let microseconds = (long.0 - short.0) / (long.1 - short.1) * 1e6;
    println!("load {}: {microseconds:.1} microseconds a step", load());
}

/// The variables by which the session tells a run its order, and where to write its schedule.
#[test]
#[ignore = "it takes minutes"]
fn one_seed() {
    for (name, _) in programs() {
        let program = Program::new(name);
        let schedules: BTreeSet<String> =
            (0..100).map(|_| program.schedule_for("r5", "")).collect();
        println!(
            "{name} | {} schedules of one seed in 100 runs",
            schedules.len()
        );
    }
}
