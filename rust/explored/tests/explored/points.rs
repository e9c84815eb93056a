//! Bugs between two calls of one poll, and between two calls of threads, where calls of tokio's own
//! are steps. That needs the command `cargo yovanelum`, by which these tables are printed.

use crate::json::{number, of_ten, text};
use crate::{Program, table};
use std::time::Instant;

const BUGS: [&str; 7] = [
    "last_table",
    "drained_then_closed",
    "sold_twice",
    "loaded_twice",
    "told_before_it_waits",
    "answers_who_left",
    "skipped_count",
];

/// The variable by which calls of tokio's own are steps, and without which they aren't. It is set
/// where this program is built.
const POINTS: (&str, &str) = ("YOVANELUM_EXPLORE_POINTS", "all");
const NO_POINTS: (&str, &str) = ("YOVANELUM_EXPLORE_POINTS", "");

/// With what the names of right programs begin that the variable `LIMIT` changes.
const WITH_A_LIMIT: [&str; 3] = ["limit_", "deadline_", "connections_"];

/// In which run each bug is found with those steps, and in which without them; how many of ten runs
/// fail again by its choices, by its name, and by the command of the report, of which there may be
/// fewer; whether the race is named; and the milliseconds of a run.
#[test]
#[ignore = "it takes minutes"]
fn the_bugs() {
    println!(
        "| Program | Found | Without | By choices | By name | Again | Race | ms a run | Without |"
    );
    for name in BUGS {
        println!("{}", row(name));
    }
}

fn row(name: &'static str) -> String {
    let program = Program::new(name);
    let without = Session::of(&program, NO_POINTS);
    let found = Session::of(&program, POINTS);
    let again = found.run.is_some().then(|| {
        let [_, by_choices, by_name] = of_ten(&found.json);
        let order = text(&found.json, "order");
        let again = [(); 10].map(|()| !program.explored_with(&[POINTS], 1, &order).0);
        let again = again.iter().filter(|fails| **fails).count();
        let has_race = found.json.contains("\"race\": ");
        format!("{by_choices} | {by_name} | {again} | {has_race}")
    });
    let shown = |run: Option<u64>| run.map_or("-".to_string(), |run| run.to_string());
    format!(
        "| `{name}` | {} | {} | {} | {:.1} | {:.1} |",
        shown(found.run),
        shown(without.run),
        again.unwrap_or("- | - | - | -".to_string()),
        program.milliseconds(POINTS),
        program.milliseconds(NO_POINTS)
    )
}

/// A session of 500 runs.
struct Session {
    /// The run that fails.
    run: Option<u64>,
    json: String,
}

impl Session {
    fn of(program: &Program, points: (&str, &str)) -> Session {
        let (_, said, json) = program.explored_with(&[points], 500, "0");
        assert!(json.contains("\"runs\": "), "{said}");
        // A program that records nothing is refused without these steps.
        let is_found = !json.contains("\"failure\": null");
        Session {
            run: is_found.then(|| number(&json, "runs")),
            json,
        }
    }
}

impl Program {
    /// Returns how long a run takes, of 20 that are made one after the other.
    fn milliseconds(&self, points: (&str, &str)) -> f64 {
        const RUNS: u32 = 20;
        let began = Instant::now();
        for _ in 0..RUNS {
            let mut command = self.command();
            let order = [
                ("YOVANELUM_EXPLORE_ORDER", "s"),
                ("YOVANELUM_EXPLORE_PROCESSOR", "1"),
            ];
            command.envs(order).envs([points]);
            command.output().unwrap();
        }
        began.elapsed().as_secs_f64() * 1000.0 / f64::from(RUNS)
    }
}

/// How many of 100 runs of each right program fail with those steps.
#[test]
#[ignore = "it takes minutes"]
fn the_right_programs() {
    println!("| Program | Failed of 100 |");
    for name in right() {
        println!("{}", failed_of(name, 100, &[POINTS]));
    }
}

/// How many of 1,000 runs fail without them: of each right program, and of one with a limit for
/// each of three limits.
#[test]
#[ignore = "it takes an hour"]
fn the_right_programs_with_limits() {
    println!("load {}", table::load());
    println!("| Program | Failed of 1,000 |");
    for name in right() {
        let has_limit = WITH_A_LIMIT.iter().any(|start| name.starts_with(start));
        let limits: &[&str] = if has_limit {
            &["250", "1000", "5000"]
        } else {
            &["30000"]
        };
        for limit in limits {
            let variables = [NO_POINTS, ("LIMIT", *limit)];
            let row = failed_of(name, 1000, &variables);
            println!("{row} {limit} ms; load {}", table::load());
        }
    }
}

fn right() -> impl Iterator<Item = &'static str> {
    let names = table::programs().map(|(name, _)| name);
    names.filter(|name| table::is_right(name))
}

/// Explores a right program in this many runs, and returns a row of what they came to.
fn failed_of(name: &'static str, runs: u64, variables: &[(&str, &str)]) -> String {
    let began = Instant::now();
    let (passes, said, json) = Program::new(name).explored_with(variables, runs, "0");
    let seconds = began.elapsed().as_secs_f64();
    if passes {
        format!("| `{name}` | 0 in {seconds:.0} s |")
    } else {
        format!("| `{name}` | in run {} | {said}", number(&json, "runs"))
    }
}
