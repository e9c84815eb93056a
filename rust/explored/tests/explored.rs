//! Bugs of order are found, and brought back by what the report names. Right programs pass. Each
//! program is a test that is left out unless it is asked for; those that aren't run this program
//! again to explore them.

#[path = "explored/asked.rs"]
mod asked;
#[path = "explored/covered.rs"]
mod covered;
#[path = "explored/json.rs"]
mod json;
#[path = "explored/natural.rs"]
mod natural;
#[path = "explored/points.rs"]
mod points;
mod programs;
#[path = "explored/races.rs"]
mod races;
#[path = "explored/sessions.rs"]
mod sessions;
#[path = "explored/slow.rs"]
mod slow;
#[path = "explored/table.rs"]
mod table;
#[path = "explored/timed.rs"]
mod timed;

use json::{best_of_ten, hangs, number, text};
use std::cell::Cell;
use std::path::{Path, PathBuf};
use std::process::{Command, Output};
use std::sync::atomic::{AtomicU32, Ordering};
use std::{env, fs, panic, process};

/// Declares a test for each program, which is explored by others. Those of the table come first.
macro_rules! programs {
    ({ $($group:ident: $($name:ident)*;)* } { $($other:ident: $($beside:ident)*;)* }) => {
        mod run {
            /// A recorder by itself, and the guard that makes it one of a test.
            #[test]
            #[ignore = "it is explored by another test"]
            fn guarded() {
                let recorder = yovanelum::Recorder::new();
                let _saved = recorder.save_on_panic("guarded");
                let _entered = recorder.enter();
                crate::programs::threads::double_claim();
            }

            /// Their recorder is made on a runtime whose workers are there before it.
            #[test]
            #[ignore = "it is explored by another test"]
            fn sleeps_beside_a_receive() {
                crate::programs::limits::sleeps_beside_a_receive();
            }

            #[test]
            #[ignore = "it is explored by another test"]
            fn waits_for_a_limit() {
                crate::programs::limits::waits_for_a_limit();
            }

            $($(
                #[test]
                #[ignore = "it is explored by another test"]
                fn $name() {
                    let _recorder = yovanelum::Recorder::for_test(stringify!($name));
                    crate::programs::$group::$name();
                }
            )*)*

            $($(
                #[test]
                #[ignore = "it is explored by another test"]
                fn $beside() {
                    let _recorder = yovanelum::Recorder::for_test(stringify!($beside));
                    crate::programs::$other::$beside();
                }
            )*)*
        }

        /// The program of each name in the table.
        pub const PROGRAMS: &[(&str, fn())] = &[$($((stringify!($name), programs::$group::$name as fn()),)*)*];
    };
}

programs! {
    {
        threads: late_audit lost_update check_then_send slow_handler lag_of_33 last_job_at_stop torn_limits double_claim resubscribe_gap
            four_in_order eight_turns waits_forever;
        workers: copy_then_subscribe read_before_lock weak_plugin start_by_count leaves_after_answers;
        tasks: overtaken_router old_price heart_and_monitor config_by_timer told_too_early read_before_await subscribes_after_answer
            job_behind_stop first_of_a_set closed_pool;
        timers: ready_within_a_limit leaves_when_idle asks_again flushed_in_between taken_to_be_dead evicted_before_it_is_read
            published_too_early given_up_at_stop two_leaders second_answer_is_late;
        servers: chat acknowledged_too_early chat_on_one_thread;
        right: paused_clock long_timeout socket spin held_lock nested_closures barrier biased_select join_set blocking_pool
            many_sends skipping_audit;
        limits: limit_of_a_game limit_on_workers limit_by_a_sleep limit_put_off deadline_of_many limit_beside_ticks
            connections_end_in_time connections_take_three_quarters;
    }
    {
        races: first_to_lock added_to_an_old_sum rings_too_early no_permit_left one_permit_each first_message looks_once answers_too_late
            not_listening_yet stopped_before_its_job;
        covered: two_sends_and_a_look one_waits nobody_shares;
        points: last_table drained_then_closed sold_twice loaded_twice told_before_it_waits answers_who_left skipped_count;
        edges: has_a_file fails_by_chance fails_always leaves_a_process slow_lost_update listens_by_then ends_in_turn;
        limits: limit_outside_of_its_runtime;
    }
}

/// A program, which is run again in a process of its own.
pub struct Program {
    name: &'static str,
    folder: PathBuf,
}

impl Program {
    pub fn new(name: &'static str) -> Program {
        static NEXT: AtomicU32 = AtomicU32::new(0);
        let number = NEXT.fetch_add(1, Ordering::Relaxed);
        let folder = format!("yovanelum-explored-{}-{number}", process::id());
        let folder = env::temp_dir().join(folder);
        fs::create_dir_all(&folder).unwrap();
        Program { name, folder }
    }

    fn command(&self) -> Command {
        let mut command = Command::new(env::current_exe().unwrap());
        let name = format!("run::{}", self.name);
        command
            .args(["--ignored", "--exact", &name, "--nocapture"])
            .env("RUST_BACKTRACE", "0")
            .env(programs::edges::FOLDER, &self.folder)
            .env_remove("YOVANELUM_KEEP");
        command
    }

    /// Explores the program. Returns whether it passes, what it says, and what it writes as JSON.
    pub fn explored(&self, runs: u64, from: &str) -> (bool, String, String) {
        self.explored_with(&[], runs, from)
    }

    /// The same, with these variables.
    pub fn explored_with(
        &self,
        variables: &[(&str, &str)],
        runs: u64,
        from: &str,
    ) -> (bool, String, String) {
        let out = self.folder.join("out.json");
        let ran = self
            .command()
            .env("YOVANELUM_EXPLORE", runs.to_string())
            .env("YOVANELUM_EXPLORE_FROM", from)
            .env("YOVANELUM_EXPLORE_JOBS", "1")
            .env("YOVANELUM_EXPLORE_OUT", &out)
            .envs(variables.iter().copied())
            .output()
            .unwrap();
        let json = fs::read_to_string(out).unwrap_or_default();
        (ran.status.success(), said(&ran), json)
    }

    /// Runs the program by an order, as a session does that looks for this condition, or for none.
    /// Returns its schedule.
    pub fn schedule_for(&self, order: &str, condition: &str) -> String {
        let path = self.folder.join("one.schedule");
        let mut command = self.command();
        let command = command.env("YOVANELUM_EXPLORE_ORDER", order);
        let command = command.env("YOVANELUM_EXPLORE_FOR", condition);
        let command = command.env("YOVANELUM_EXPLORE_PROCESSOR", "1");
        let ran = command.env("YOVANELUM_EXPLORE_SCHEDULE", &path).output();
        fs::read_to_string(path).unwrap_or_else(|_| said(&ran.unwrap()))
    }

    /// The same command, which is ended after `seconds` seconds.
    fn command_that_ends(&self, seconds: u32) -> Command {
        let mut command = Command::new("timeout");
        let program = self.command();
        command
            .arg(seconds.to_string())
            .arg(program.get_program())
            .args(program.get_args())
            .env("RUST_BACKTRACE", "0");
        command
    }

    /// Replays a journal, or what is beside it. One that hangs is ended, soon if it is to hang.
    pub fn replayed(&self, journal: &str, hangs: bool) -> Replayed {
        let mut command = self.command_that_ends(if hangs { 3 } else { 60 });
        let ran = command.env("YOVANELUM_REPLAY", journal).output().unwrap();
        Replayed {
            code: ran.status.code(),
            said: said(&ran),
        }
    }
}

/// What a replay was.
pub struct Replayed {
    code: Option<i32>,
    said: String,
}

impl Replayed {
    /// Whether it has failed: by a panic, or where it is to hang, by that. One that is ended may be
    /// one that is slow, so it must not have diverged.
    pub fn fails(&self, hangs: bool) -> bool {
        let is_ended = hangs && self.code == Some(124) && !self.said.contains("diverges");
        is_ended || self.code == Some(101)
    }
}

impl Drop for Program {
    fn drop(&mut self) {
        let _ = fs::remove_dir_all(&self.folder);
    }
}

fn said(ran: &Output) -> String {
    String::from_utf8_lossy(&ran.stderr).into_owned()
}

/// Asserts that the bug of this program is found, that its report has these lines, and that the
/// journal brings it back, or the schedule beside it.
fn assert_found(name: &'static str, lines: &[&str]) {
    assert_brought_back(name, lines, 10);
}

/// How many sessions a program has at most where chance decides something in each.
const SESSIONS: u32 = 12;

/// Asserts something of a session of a program in which not all is chosen: the machine's clock goes
/// on while tasks are held or wait for a processor, and which worker polls what is the runtime's
/// choice. On a machine that is busy, a run may then be another one than its order says. So a
/// session that isn't right is made again from anew, and the best of some is judged. A fault of the
/// tool is one of each session.
fn assert_in_some_session(session: impl Fn()) {
    let is_right = || panic::catch_unwind(panic::AssertUnwindSafe(&session)).is_ok();
    if !(1..SESSIONS).any(|_| is_right()) {
        session();
    }
}

/// Asserts that a report says that a timer has ended: by a choice or, on a machine that is busy, by
/// the machine's clock while tasks were held.
fn assert_tells_time(said: &str) {
    let by_choice = said.contains("  time passed at step ");
    let by_clock = said.contains("  timers of the machine's clock went on for ");
    assert!(by_choice || by_clock, "{said}");
}

/// As [`assert_found`], where it is brought back so often of ten at least. Returns what was said.
fn assert_brought_back(name: &'static str, lines: &[&str], times: u64) -> String {
    let program = Program::new(name);
    let (passes, said, json) = program.explored(500, "0");
    assert!(!passes, "{said}");
    for line in lines {
        assert!(said.contains(line), "no `{line}` in {said}");
    }
    let runs = number(&json, "runs");
    assert!(runs <= 500, "{json}");
    assert!(best_of_ten(&json) >= times, "{json}");
    let journal = text(&json, "journal");
    assert!(Path::new(&journal).exists(), "{json}");
    let hangs = hangs(&json);
    // What doesn't come back in each of ten comes back the more seldom, the busier the machine is.
    let (most, wanted) = if times == 10 { (3, 3) } else { (10, 2) };
    let replays = (0..most).map(|_| program.replayed(&journal, hangs));
    let failed = replays.filter(|replay| replay.fails(hangs)).take(wanted);
    assert_eq!(failed.count(), wanted, "of {most}");
    let again = format!(
        "again:  YOVANELUM_EXPLORE=1 YOVANELUM_EXPLORE_FROM={} ",
        text(&json, "order")
    );
    // It is offered where it was seen to work.
    let is_offered = said.contains(&again);
    let is_kept = text(&json, "order").contains("f:");
    assert_eq!(
        is_offered,
        is_kept || number(&json, "byOrder") > 0,
        "{again} in {said}"
    );
    said
}

/// Asserts that no order of this program fails, in `runs` runs.
fn assert_right_in(runs: u64, name: &'static str, lines: &[&str]) {
    let program = Program::new(name);
    let (passes, said, json) = program.explored(runs, "0");
    assert!(passes, "{said}");
    assert!(
        said.contains(&format!("explored {name}: all {runs} runs passed")),
        "{said}"
    );
    for line in lines {
        assert!(said.contains(line), "no `{line}` in {said}");
    }
    assert_eq!(number(&json, "runs"), runs, "{json}");
    assert!(json.contains("\"failure\": null"), "{json}");
}

/// The same in 20 runs, which are too few to try each order with one switch.
fn assert_right(name: &'static str, lines: &[&str]) {
    assert_right_in(20, name, lines);
}

/// Asserts that no order of this program fails, and that it says that there is one alone. That is
/// no success: nothing was explored.
fn assert_one_order(name: &'static str, lines: &[&str]) {
    let (passes, said, json) = Program::new(name).explored(20, "0");
    let line = format!("explored {name}: nothing was explored: there was one order alone in ");
    assert!(!passes && said.contains(&line), "{said}");
    for line in lines {
        assert!(said.contains(line), "no `{line}` in {said}");
    }
    assert_eq!(number(&json, "choices"), 0, "{json}");
    assert!(json.contains("\"failure\": null"), "{json}");
}

#[test]
fn an_update_that_is_marked_as_seen_unseen_is_found() {
    assert_found(
        "lost_update",
        &[
            "`reader` was held before channel 0.mark_unchanged (tests/programs/threads.rs:",
            ", after channel 0.borrow (:",
            "while `admin` made channel 0.send (:",
            "\n right: 4\n",
        ],
    );
}

#[test]
fn a_job_that_is_sent_when_the_worker_has_left_is_found() {
    assert_found("check_then_send", &["a worker is there: SendError("]);
}

#[test]
fn limits_of_two_versions_are_found() {
    let lines = ["  the story: passes if `meter` makes channel ", ": from "];
    assert_found("torn_limits", &lines);
}

#[test]
fn a_lease_that_two_claim_is_found() {
    let lines = [
        " was held before channel 0.send (",
        ", after channel 0.borrow (:",
        "  left: 2\n",
    ];
    assert_found("double_claim", &lines);
}

#[test]
fn a_copy_that_is_older_than_the_subscription_is_found() {
    let lines = [
        "`keeper` made channel 1.subscribe (",
        "  the story: passes if `keeper` makes channel 1.subscribe (",
        "; fails otherwise (5 of 5 each)\n",
        "\n right: 12\n",
    ];
    assert_found("copy_then_subscribe", &lines);
}

/// Its order is one of polls, which no journal has.
#[test]
fn an_order_of_polls_is_found_and_brought_back_by_the_schedule() {
    assert_found(
        "old_price",
        &[
            "the journal brings it back 0 of 5, the schedule's file 5 of 5, the order ",
            "an old price stays",
        ],
    );
}

#[test]
fn time_is_a_choice_without_a_search_too() {
    assert_in_some_session(|| {
        let (passes, said, _) = Program::new("heart_and_monitor").explored(200, "1000");
        assert!(!passes && said.contains("  time passed at step "), "{said}");
    });
}

#[test]
fn a_paused_clock_stands_still_while_tasks_are_held() {
    assert_right_in(
        60,
        "paused_clock",
        &[" orders that there are passed, and there is no other; "],
    );
}

#[test]
fn a_long_timeout_never_ends() {
    assert_right("long_timeout", &[]);
}

#[test]
fn what_comes_by_a_socket_is_waited_for() {
    assert_right_in(60, "socket", &[" orders with at most 3 switches passed; "]);
}

#[test]
fn a_thread_that_spins_is_let_be() {
    assert_one_order("spin", &[" steps were chosen while a thread ran\n"]);
}

#[test]
fn a_lock_that_is_held_over_calls_is_waited_for() {
    assert_right("held_lock", &["\n  0 of "]);
}

#[test]
fn closures_within_closures_pass() {
    assert_right_in(
        60,
        "nested_closures",
        &[" orders with at most 3 switches passed; "],
    );
}

#[test]
fn threads_at_a_barrier_pass() {
    assert_right("barrier", &["\n  0 of "]);
}

#[test]
fn a_select_with_an_order_passes() {
    assert_right("biased_select", &[]);
}

#[test]
fn a_set_of_tasks_passes() {
    assert_right("join_set", &[]);
}

#[test]
fn the_blocking_pool_passes() {
    assert_right("blocking_pool", &[]);
}

#[test]
fn a_server_on_one_thread_passes() {
    assert_right("chat_on_one_thread", &[]);
}

#[test]
fn one_order_is_made_again_by_its_name() {
    let program = Program::new("read_before_lock");
    let (_, _, json) = program.explored(500, "0");
    let order = text(&json, "order");
    for _ in 0..5 {
        let (passes, said, json) = program.explored(1, &order);
        assert!(!passes && said.contains("\n right: 2\n"), "{said}");
        assert_eq!(
            (number(&json, "runs"), text(&json, "order")),
            (1, order.clone()),
            "{json}"
        );
    }
}

#[test]
fn tests_of_one_program_are_explored_one_after_the_other() {
    let ran = Command::new(env::current_exe().unwrap())
        .args(["--ignored", "run::socket", "run::held_lock", "run::barrier"])
        .env("YOVANELUM_EXPLORE", "20")
        .env("YOVANELUM_EXPLORE_JOBS", "2")
        .output()
        .unwrap();
    let said = said(&ran);
    assert!(ran.status.success(), "{said}");
    for name in ["socket", "held_lock", "barrier"] {
        let line = format!("explored {name}: all 20 runs passed");
        assert!(said.contains(&line), "no `{line}` in {said}");
    }
}

#[test]
fn a_guard_explores_the_test_whose_channels_are_made_behind_it() {
    let program = Program::new("guarded");
    let (passes, said, json) = program.explored(100, "0");
    assert!(!passes, "{said}");
    assert!(said.contains("explored guarded: "), "{said}");
    assert_eq!(best_of_ten(&json), 10, "{json}");
}

#[test]
fn time_never_passes_where_it_may_not() {
    let has_passed = Cell::new(false);
    assert_in_some_session(|| {
        let never = [("YOVANELUM_EXPLORE_TIME", "never")];
        let program = Program::new("heart_and_monitor");
        let (passes, said, _) = program.explored_with(&never, 12, "0");
        has_passed.set(has_passed.get() || said.contains("  time passed at step "));
        assert!(passes, "{said}");
    });
    // That is no matter of the machine's clock.
    assert!(!has_passed.get());
}

#[test]
fn no_run_begins_later_than_it_may() {
    // The test passes by itself, as it runs once more behind the exploring.
    let program = Program::new("socket");
    let ran = program
        .command()
        .env("YOVANELUM_EXPLORE", "1000000")
        .env("YOVANELUM_EXPLORE_SECONDS", "0")
        .output()
        .unwrap();
    let said = said(&ran);
    assert!(ran.status.success(), "{said}");
    assert!(
        said.contains("explored socket: all 0 runs passed"),
        "{said}"
    );
}

#[test]
fn a_variable_that_is_none_is_refused() {
    for (variable, value, fault) in [
        (
            "YOVANELUM_EXPLORE",
            "many",
            "YOVANELUM_EXPLORE is `many`, and no number",
        ),
        (
            "YOVANELUM_EXPLORE_FROM",
            "x9",
            "YOVANELUM_EXPLORE_FROM is `x9`, and neither a number nor an order",
        ),
        (
            "YOVANELUM_EXPLORE_TIME",
            "always",
            "YOVANELUM_EXPLORE_TIME is `always`, and not `never`",
        ),
        (
            "YOVANELUM_EXPLORE_POINTS",
            "some",
            "YOVANELUM_EXPLORE_POINTS is `some`, and not `all`",
        ),
        // This program wasn't built by the command.
        (
            "YOVANELUM_EXPLORE_POINTS",
            "all",
            "YOVANELUM_EXPLORE_POINTS needs the command `cargo yovanelum explore`",
        ),
    ] {
        let program = Program::new("socket");
        let mut command = program.command();
        command.env("YOVANELUM_EXPLORE", "3");
        let ran = command.env(variable, value).output().unwrap();
        assert!(
            !ran.status.success() && said(&ran).contains(fault),
            "{}",
            said(&ran)
        );
    }
}
