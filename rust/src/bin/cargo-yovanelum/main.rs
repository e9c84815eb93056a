//! The command `cargo yovanelum`: runs the tests of a package as they are, with recorded channels
//! in the place of tokio's, and finds the reports of those that failed.
#![deny(unsafe_code)]

mod journals;
mod lacking;
mod lock;
#[path = "../../harness/stand_in/manifest.rs"]
mod manifest;
#[path = "../../harness/program/options.rs"]
mod options;
mod points;
mod run;
mod signals;
mod stand_in;
mod words;
mod workspace;

use journals::FoundJournal;
use options::Speaker;
use points::POINTS;
use run::{CommandRun, DEBUG_VALUES};
use std::env;
use std::ffi::OsString;
use std::fs;
use std::io::{self, Write};
use std::path::PathBuf;
use std::process::ExitCode;
use std::time::SystemTime;
use words::Words;
use workspace::{CommandFailed, Workspace};
use yovanelum_reader::answers;
use yovanelum_record::question;

/// The variable by which the runs of tests that pass are kept.
const KEEP_PASSED: &str = "YOVANELUM_KEEP_PASSED";

/// The option of `why` by which it draws nothing in a terminal.
const NO_PICTURE: &str = "--no-picture";

/// The completions of each shell.
const COMPLETIONS: [(&str, &str); 3] = [
    ("bash", include_str!("completions/bash")),
    ("zsh", include_str!("completions/zsh")),
    ("fish", include_str!("completions/fish")),
];

/// The page, so that the installed command needs no other file.
const PAGE: &[u8] = include_bytes!("../../../built/yovanelum.html");

const USAGE: &str = "\
Run the tests of a package with tokio's broadcast and watch channels recorded

Usage: cargo yovanelum <COMMAND>

Commands:
  test [WORDS]        Run `cargo test` with these words. A failing test says what its channels did
  nextest [WORDS]     The same with `cargo nextest`, such as `nextest run`
  run [WORDS]         The same with `cargo run`
  replay <TEST>       Make the calls of its last failing run again, in their order
  explore <TEST>      Run it by many orders until one fails
  diff <TEST>         Say where its last failing run differs from its last passing one
  list                List the tests that failed, the last one first
  why [TEST]          Print the report of a test, or the last one
  open [TEST]         Write the page that draws its run, and print where
  clean               Remove the reports, and what the command has written beside
  completions <SHELL> Print the completions for bash, zsh or fish

Options:
      --report-after <SECONDS>  Report a test that hasn't ended after this time [default: 60]
      --short                   Leave the lines of the sources out of reports
      --no-picture              Draw no receivers where `why` prints to a terminal
      --only <TEST>             Record this test alone. It may be given several times
      --passing                 Keep the runs of tests that pass, too: `list --passing` lists them
      --debug-values            Show values of all types that have `Debug`, by what is unstable
      --runs <RUNS>             How many orders `explore` tries [default: 1000], and how many runs
                                `diff` waits for one that passes [default: 10]
  -h, --help                    Print help
  -V, --version                 Print version

A TEST is given by its path, or the end of it. WORDS are those of cargo's own command, and words
after a TEST those of `cargo test`: `cargo test --help` lists them.
";

fn main() -> ExitCode {
    let words = env::args_os().skip(1).map(OsString::into_string).collect();
    let words: Result<Vec<String>, OsString> = words;
    let done = match words {
        Ok(words) => begin(words),
        Err(word) => Err(usage(format!("`{}` is no text", word.to_string_lossy()))),
    };
    match done {
        Ok(status) => ExitCode::from(status),
        Err(CommandFailed { line, status }) => {
            if let Some(line) = line {
                eprintln!("error: {line}");
            }
            ExitCode::from(status)
        }
    }
}

/// Runs the command with the words after its name.
fn begin(mut words: Vec<String>) -> Result<u8, CommandFailed> {
    // Cargo repeats the name of a command of its own.
    if words.first().is_some_and(|word| word == "yovanelum") {
        words.remove(0);
    }
    let Some((verb, words)) = words.split_first() else {
        return print(USAGE);
    };
    match verb.as_str() {
        // A failing test has it read its run.
        question::WORD => serve(),
        "-h" | "--help" | "help" => print(USAGE),
        verb if is_command(verb) && asks_for_help(words) => print(USAGE),
        "-V" | "--version" => print(concat!("cargo-yovanelum ", env!("CARGO_PKG_VERSION"), "\n")),
        "test" | "t" => test(&["test"], words),
        "run" | "r" => test(&["run"], words),
        "nextest" => match words.split_first() {
            Some((verb, words)) => test(&["nextest", verb], words),
            None => Err(usage(
                "`nextest` needs its command, such as `run`".to_string(),
            )),
        },
        "replay" => replay(words),
        "explore" => explore(words),
        "diff" => diff(words),
        "list" => list(Words::of(words)),
        "why" | "open" => of_journal(verb, words),
        "clean" => clean(&Words::of(words)),
        "completions" => completions(words),
        _ => Err(usage(format!("no such command: `{verb}`"))),
    }
}

/// Returns what a test asks of its run.
fn serve() -> Result<u8, CommandFailed> {
    let mut input = io::stdin().lock();
    let mut out = io::BufWriter::new(io::stdout().lock());
    let served = answers::serve(&mut input, &mut out, PAGE);
    served.map(|()| 0).map_err(|error| CommandFailed {
        line: Some(format!("write error: {error}")),
        status: 4,
    })
}

/// Whether the help lists a command with this name.
fn is_command(verb: &str) -> bool {
    ["t", "r"].contains(&verb) || USAGE.contains(&format!("\n  {verb} "))
}

/// Whether words of this command ask for help. Those from `--` on are the test program's.
fn asks_for_help(words: &[String]) -> bool {
    let mut before = words.iter().take_while(|word| *word != "--");
    before.any(|word| word == "-h" || word == "--help")
}

fn usage(line: String) -> CommandFailed {
    CommandFailed {
        line: Some(format!(
            "{line}\n\nFor more information, try `cargo yovanelum --help`."
        )),
        status: 2,
    }
}

fn print(text: &str) -> Result<u8, CommandFailed> {
    let printed = io::stdout().write_all(text.as_bytes());
    printed.map(|()| 0).map_err(|error| CommandFailed {
        line: Some(format!("write error: {error}")),
        status: 4,
    })
}

/// The variables that an option of this command sets for the tests.
fn variables(words: &mut Words) -> Vec<(&'static str, OsString)> {
    let after = words.take("--report-after");
    let mut set = Vec::from_iter(after.map(|seconds| ("YOVANELUM_REPORT_AFTER", seconds.into())));
    let mut only = vec![];
    while let Some(test) = words.take("--only") {
        only.push(test);
    }
    if !only.is_empty() {
        set.push(("YOVANELUM_ONLY", only.join(",").into()));
    }
    if words.take_alone("--short") {
        set.push(("YOVANELUM_SHORT", "1".into()));
    }
    if words.take_alone("--passing") {
        set.push((KEEP_PASSED, "1".into()));
    }
    set
}

/// Runs cargo's command with the user's words, and says how many tests have left a report.
fn test(verb: &[&str], words: &[String]) -> Result<u8, CommandFailed> {
    let mut words = Words::of(words);
    let variables = variables(&mut words);
    let began = SystemTime::now();
    let run = CommandRun {
        verb,
        words,
        variables,
        is_aside: false,
    };
    let (workspace, status) = run.start()?;
    keep_words(&workspace, &run);
    let reports = journals::all(&workspace);
    let count = reports
        .iter()
        .filter(|journal| journal.written >= began && !journal.has_passed())
        .count();
    if count > 0 {
        let tests = if count == 1 {
            "1 test has"
        } else {
            &format!("{count} tests have")
        };
        eprintln!("yovanelum: {tests} left a report: `cargo yovanelum list`");
    }
    Ok(status)
}

/// The words of the last run that chose what was built, for a replay of its tests.
fn kept_words(workspace: &Workspace) -> PathBuf {
    workspace.state().join("words")
}

fn keep_words(workspace: &Workspace, run: &CommandRun) {
    let speaker = match run.verb {
        ["nextest", ..] => Speaker::Nextest,
        _ => Speaker::Cargo,
    };
    let mut words = run.words.of_build(speaker);
    if run.words.before.iter().any(|word| word == DEBUG_VALUES) {
        words.push(DEBUG_VALUES.to_string());
    }
    let words = words.join("\n");
    // Without them, a replay is built as if none had been given.
    let _ = fs::write(kept_words(workspace), words);
}

/// Splits off the test that is named first.
fn named(words: &[String]) -> Result<(&str, Words), CommandFailed> {
    match words.split_first() {
        Some((test, rest)) if !test.starts_with('-') => Ok((test, Words::of(rest))),
        _ => Err(usage("the name of a test is missing".to_string())),
    }
}

/// Makes the calls of the last failing run of a test again.
fn replay(words: &[String]) -> Result<u8, CommandFailed> {
    let (test, mut given) = named(words)?;
    let workspace = Workspace::without_packages(&given)?;
    let (journal, others) = journals::last(&workspace, Some(test))?;
    if journal.has_passed() {
        return Err(never_failed(&journal));
    }
    say_others(&journal, &others);
    let mut variables = variables(&mut given);
    variables.push(("YOVANELUM_REPLAY", journal.path.clone().into()));
    variables.extend(journal.has_points().then(|| (POINTS, "all".into())));
    alone(&workspace, &journal.test, journal.words(), given, variables).status()
}

fn never_failed(journal: &FoundJournal) -> CommandFailed {
    CommandFailed {
        line: Some(format!("no run of {} has failed", journal.test)),
        status: 4,
    }
}

/// Says which of several tests is meant.
fn say_others(journal: &FoundJournal, others: &[FoundJournal]) {
    if !others.is_empty() {
        eprintln!(
            "yovanelum: {} is meant, the last of {} tests of this name",
            shown(journal),
            others.len() + 1
        );
    }
}

fn shown(journal: &FoundJournal) -> String {
    format!("{} ({})", journal.test, journal.words().join(" "))
}

/// Returns the run of a test alone, built as in the run before.
fn alone<'a>(
    workspace: &Workspace,
    test: &str,
    target: Vec<String>,
    given: Words,
    variables: Vec<(&'a str, OsString)>,
) -> CommandRun<'a> {
    let kept = fs::read_to_string(kept_words(workspace)).unwrap_or_default();
    let mut words = Words {
        before: kept.lines().map(str::to_string).collect(),
        behind: vec!["--".to_string(), test.to_string(), "--exact".to_string()],
    };
    words.before.extend(target);
    words.before.extend(given.before);
    words.behind.extend(given.behind.into_iter().skip(1));
    CommandRun {
        verb: &["test"],
        words,
        variables,
        is_aside: false,
    }
}

/// Runs a test by many orders.
fn explore(words: &[String]) -> Result<u8, CommandFailed> {
    let (test, mut given) = named(words)?;
    let runs = given.take("--runs").unwrap_or_else(|| "1000".to_string());
    let workspace = Workspace::without_packages(&given)?;
    let mut variables = variables(&mut given);
    variables.push(("YOVANELUM_EXPLORE", runs.into()));
    match journals::last(&workspace, Some(test)) {
        Ok((journal, others)) => {
            say_others(&journal, &others);
            alone(&workspace, &journal.test, journal.words(), given, variables).status()
        }
        // One that has never failed is run wherever there is one of this path.
        Err(_) => alone(&workspace, test, vec![], given, variables).status(),
    }
}

/// Prints which call of the last failing run of a test differs first from its last passing run. If
/// none was kept, the test is run until it passes.
fn diff(words: &[String]) -> Result<u8, CommandFailed> {
    let (test, mut given) = named(words)?;
    let runs = given.take("--runs").unwrap_or_else(|| "10".to_string());
    let runs: u64 = runs
        .parse()
        .map_err(|_| usage(format!("`{runs}` is no number of runs")))?;
    let json = given.take_alone("--json").then_some("--json");
    let workspace = Workspace::without_packages(&given)?;
    let (journal, others) = journals::last(&workspace, Some(test))?;
    say_others(&journal, &others);
    if journal.has_passed() {
        return Err(never_failed(&journal));
    }
    let passed = journal.passed();
    let variables = variables(&mut given);
    pass(&workspace, &journal, (given, variables), runs)?;
    let mut all = vec!["why".into(), journal.path.clone().into_os_string()];
    all.extend(["--against".into(), passed.into_os_string()]);
    all.extend(json.map(OsString::from));
    let mut out = io::stdout().lock();
    Ok(yovanelum::command(all, PAGE, &mut out, &mut io::stderr()))
}

/// Runs a test until there is a run that passed, as many times as are wanted.
fn pass(
    workspace: &Workspace,
    journal: &FoundJournal,
    (given, variables): (Words, Vec<(&str, OsString)>),
    runs: u64,
) -> Result<(), CommandFailed> {
    let mut run = alone(workspace, &journal.test, journal.words(), given, variables);
    run.variables.push((KEEP_PASSED, "1".into()));
    run.is_aside = true;
    for _ in 0..runs {
        if journal.passed().is_file() {
            return Ok(());
        }
        run.start()?;
    }
    if journal.passed().is_file() {
        return Ok(());
    }
    let line = format!(
        "no run of {} has passed yet, and none of {runs} did now",
        journal.test
    );
    Err(CommandFailed {
        line: Some(line),
        status: 4,
    })
}

/// Lists the tests that have left a report, or those too whose passing runs are kept.
fn list(mut words: Words) -> Result<u8, CommandFailed> {
    let has_passing = words.take_alone("--passing");
    let workspace = Workspace::without_packages(&words)?;
    let journals = journals::all(&workspace);
    let lines = journals
        .iter()
        .filter(|journal| !journal.is_replayed() && (has_passing || !journal.has_passed()))
        .map(|journal| {
            let age = journal.written.elapsed().unwrap_or_default().as_secs();
            let end = if journal.has_passed() {
                "passed"
            } else {
                &journal.failed
            };
            format!("{}, {}: {end}\n", shown(journal), ago(age))
        });
    print(&lines.collect::<String>())
}

fn ago(seconds: u64) -> String {
    match seconds {
        0..60 => format!("{seconds} s ago"),
        60..3600 => format!("{} min ago", seconds / 60),
        3600..86400 => format!("{} h ago", seconds / 3600),
        _ => format!("{} days ago", seconds / 86400),
    }
}

/// Prints the report of a test, or writes its page.
fn of_journal(verb: &str, words: &[String]) -> Result<u8, CommandFailed> {
    let is_name = |word: &&String| !word.starts_with('-');
    let test = words.first().filter(is_name);
    let given = Words::of(&words[usize::from(test.is_some())..]);
    let workspace = Workspace::without_packages(&given)?;
    let (journal, others) = journals::last(&workspace, test.map(String::as_str))?;
    say_others(&journal, &others);
    let mut all = vec![OsString::from(verb), journal.path.into_os_string()];
    let forms = ["--json", "--sarif"];
    let form = given
        .before
        .iter()
        .find(|word| forms.contains(&word.as_str()));
    let is_short = given.before.iter().any(|word| word == "--short");
    match form {
        Some(form) => all.push(form.into()),
        None if verb == "why" && !is_short => all.push("--sources".into()),
        None => {}
    }
    let no_picture = given.before.iter().find(|word| *word == NO_PICTURE);
    all.extend(no_picture.map(OsString::from));
    let mut out = io::stdout().lock();
    Ok(yovanelum::command(all, PAGE, &mut out, &mut io::stderr()))
}

/// Prints the completions for a shell.
fn completions(words: &[String]) -> Result<u8, CommandFailed> {
    let [shell] = words else {
        return Err(usage("`completions` needs the name of a shell".to_string()));
    };
    let found = COMPLETIONS.iter().find(|(name, _)| name == shell);
    match found {
        Some((_, script)) => print(script),
        None => Err(usage(format!(
            "there are completions for bash, zsh and fish, and none for `{shell}`"
        ))),
    }
}

/// Removes all that this crate has written into the folder of the build.
fn clean(words: &Words) -> Result<u8, CommandFailed> {
    // Who names a test doesn't want all others to be removed.
    let (name, _) = options::read(&words.before, Speaker::Cargo);
    if !name.is_empty() {
        return Err(usage(format!("unexpected argument `{name}`")));
    }
    let own = Workspace::without_packages(words)?.own();
    match fs::remove_dir_all(&own) {
        Err(error) if error.kind() != io::ErrorKind::NotFound => {
            Err(CommandFailed::new(format!("{}: {error}", own.display())))
        }
        _ => Ok(0),
    }
}
