//! The line that says how to make the calls of a journal again: a command for the shell, to be run
//! in the folder in which cargo was run.

use super::automatic;
use super::test_run::TestRun;
use crate::channels::recorder::REPLAY;
use crate::harness::program::{CargoRun, Program, TargetKind};
use crate::schedule::explore::FOR;
use std::env;
use std::path::Path;
use yovanelum_record::listed::{IntoList, PushAll};

/// Returns the line for this journal of a test.
pub(super) fn of(journal: &Path, test: &TestRun) -> String {
    if let Some(line) = automatic::replay_line(test, quoted) {
        return line;
    }
    let program = Program::this();
    let arguments: Vec<_> = env::args().skip(1).listed();
    let mut words = vec![assigned(REPLAY, &journal.to_string_lossy())];
    words.push_all(env::var(FOR).ok().map(|asked| assigned(FOR, &asked)));
    let of_harness = of_harness(
        &program.target.kind,
        program.target.is_test,
        test,
        &arguments,
    );
    match &program.package {
        Some(package) if program.is_run_by_cargo => {
            let run = CargoRun::of(program);
            words.push_all(cargo_words(&run, package, &program.target.words()));
            let behind = of_harness.unwrap_or(if program.target.is_test {
                vec![]
            } else {
                arguments
            });
            if !behind.is_empty() {
                words.push("--".to_string());
                words.push_all(behind.iter().map(|word| quoted(word)));
            }
        }
        _ => {
            words.push(quoted(&program.path.to_string_lossy()));
            words.push_all(
                of_harness
                    .unwrap_or(arguments)
                    .iter()
                    .map(|word| quoted(word)),
            );
        }
    }
    format!("replay: {}\n", words.join(" "))
}

/// Returns the line that compares this journal with the one that was replayed.
pub(super) fn comparing(journal: &Path, replayed: &Path) -> String {
    let word = |path: &Path| quoted(&path.to_string_lossy());
    let (journal, replayed) = (word(journal), word(replayed));
    format!("compare: yovanelum why {journal} --against {replayed}\n")
}

/// Returns the words of cargo's command up to those for the program itself.
fn cargo_words(run: &CargoRun, package: &str, target: &[String]) -> Vec<String> {
    let variables = run.variables.iter();
    let mut words: Vec<_> = variables
        .map(|(name, value)| assigned(name, value))
        .listed();
    words.push("cargo".to_string());
    words.push(quoted(&run.verb));
    words.push_all(run.options.iter().map(|option| quoted(option)));
    words.push("-p".to_string());
    words.push(quoted(package));
    words.push_all(target.iter().map(|word| quoted(word)));
    words
}

/// Returns the words by which a test harness runs this test alone, if that is known.
fn of_harness(
    kind: &TargetKind,
    is_test: bool,
    test: &TestRun,
    arguments: &[String],
) -> Option<Vec<String>> {
    if !is_test || *kind == TargetKind::Doc {
        return None;
    }
    let exact = arguments.iter().any(|word| word == "--exact");
    let mut names = arguments.iter().filter(|word| !word.starts_with('-'));
    let given = match (names.next(), names.next()) {
        (Some(name), None) if exact => Some(name.clone()),
        _ => None,
    };
    let name = Some(test.thread.clone()).filter(|name| is_name_of_test(name));
    let mut words = vec![name.or(given)?, "--exact".to_string()];
    let is_ignored = |word: &String| word == "--ignored" || word == "--include-ignored";
    words.push_all(
        arguments
            .iter()
            .any(is_ignored)
            .then(|| "--include-ignored".to_string()),
    );
    Some(words)
}

/// Whether the name of a thread may be that of a test, which is a path of names. The harness may
/// run a test on the main thread, and a runtime names its threads otherwise.
pub(super) fn is_name_of_test(name: &str) -> bool {
    let is_first = |c: char| c.is_alphabetic() || c == '_';
    let is_word = |word: &str| {
        word.starts_with(is_first) && word.chars().all(|c| c.is_alphanumeric() || c == '_')
    };
    name != "main" && name.split("::").all(is_word)
}

/// Returns the word that sets a variable for one command.
fn assigned(name: &str, value: &str) -> String {
    format!("{name}={}", quoted(value))
}

/// Returns a text as one word of a shell.
pub(super) fn quoted(text: &str) -> String {
    let is_plain = |c: char| c.is_alphanumeric() || "_-./:=,+@%".contains(c);
    if !text.is_empty() && text.chars().all(is_plain) {
        text.to_string()
    } else {
        format!("'{}'", text.replace('\'', "'\\''"))
    }
}

#[cfg(test)]
mod tests {
    use super::*;
    use crate::Recorder;
    use crate::harness::test_run::name_of_thread;
    use std::thread;

    fn words(thread: &str, arguments: &[&str]) -> Option<String> {
        let recorder = Recorder::new();
        let name = thread.to_string();
        let thread = thread::Builder::new().name(name);
        let test = thread.spawn(move || TestRun::start(&recorder.0, "it ends", name_of_thread()));
        let test = test.unwrap().join().unwrap();
        let arguments: Vec<_> = arguments.iter().map(|word| word.to_string()).collect();
        of_harness(&TargetKind::Test, true, &test, &arguments).map(|words| words.join(" "))
    }

    #[test]
    #[cfg_attr(target_family = "wasm", ignore = "WebAssembly names no program")]
    fn a_harness_runs_the_test_of_this_thread_alone() {
        let one = |thread, arguments: &[&str]| words(thread, arguments).unwrap();
        assert_eq!(one("tests::it_ends", &[]), "tests::it_ends --exact");
        assert_eq!(one("it_ends", &["it", "--nocapture"]), "it_ends --exact");
        assert_eq!(
            one("it_ends", &["--ignored"]),
            "it_ends --exact --include-ignored"
        );
        assert_eq!(one("main", &["it_ends", "--exact"]), "it_ends --exact");
        assert_eq!(one("tokio-rt-worker", &["--exact", "a::b"]), "a::b --exact");
        assert_eq!(words("main", &["it"]), None);
        assert_eq!(words("main", &["a", "b", "--exact"]), None);
    }

    #[test]
    fn words_are_quoted_for_the_shell() {
        for (text, word) in [
            (
                "/bus/target/yovanelum/a%2Fb.journal",
                "/bus/target/yovanelum/a%2Fb.journal",
            ),
            ("", "''"),
            ("--cfg yovanelum", "'--cfg yovanelum'"),
            ("it's $HOME", "'it'\\''s $HOME'"),
            (
                "patch.crates-io.tokio.path=\"../x\"",
                "'patch.crates-io.tokio.path=\"../x\"'",
            ),
            ("~/x", "'~/x'"),
        ] {
            assert_eq!(quoted(text), word);
        }
    }

    #[test]
    fn the_command_has_what_the_build_had() {
        let text = |text: &str| text.to_string();
        let run = CargoRun {
            variables: vec![(text("RUSTFLAGS"), text("--cfg yovanelum"))],
            verb: text("test"),
            options: vec![text("--config"), text("a=\"b c\"")],
        };
        let words = cargo_words(&run, "my-shop", &[text("--test"), text("bus")]);
        assert_eq!(
            words.join(" "),
            "RUSTFLAGS='--cfg yovanelum' cargo test --config 'a=\"b c\"' -p my-shop --test bus"
        );
    }
}
