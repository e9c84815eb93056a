//! How cargo was told to build this program: what a later command has to say for the same build.

use super::options::{self, Speaker};
use super::{Program, TargetKind};
use crate::harness::stand_in;
use std::path::Path;
use std::sync::OnceLock;
use std::{env, fs};
use yovanelum_record::listed::IntoList;

/// Variables by which cargo and rustc are told what to build. Tests have those of cargo.
const VARIABLES: [&str; 4] = [
    "RUSTFLAGS",
    "CARGO_ENCODED_RUSTFLAGS",
    "CARGO_BUILD_RUSTFLAGS",
    "RUSTDOCFLAGS",
];

/// The folder of the package that stands for tokio, if it is part of this build.
static PATCH: OnceLock<&str> = OnceLock::new();

/// Says in which folder the package is that stands for tokio in this build. It is for that package.
#[doc(hidden)]
pub fn set_patch(folder: &'static str) {
    let _ = PATCH.set(folder);
}

/// Whether a package in tokio's place is part of the build. It says in which folder it is where a
/// runtime is built or a task is spawned, and asks for a feature of this crate in any case.
pub(crate) fn is_patched() -> bool {
    PATCH.get().is_some() || cfg!(feature = "patch")
}

/// Returns the folder of the package in tokio's place, if it is part of the build.
fn patch() -> Option<String> {
    let said = PATCH.get().map(|folder| folder.to_string());
    said.or_else(|| is_patched().then(stand_in::folder_of_build))
}

/// What a command has to say for the same build as that of this program.
#[derive(Clone, Debug, Default, PartialEq, Eq)]
pub(crate) struct CargoRun {
    /// The variables that are set, with their values.
    pub(crate) variables: Vec<(String, String)>,
    /// The subcommand, such as `test`.
    pub(crate) verb: String,
    pub(crate) options: Vec<String>,
}

impl CargoRun {
    /// Returns what is known of the cargo that runs this program.
    pub(crate) fn of(program: &Program) -> CargoRun {
        let is_doc = program.target.kind == TargetKind::Doc;
        let of_target = VARIABLES.iter();
        let of_target = of_target.filter(|name| is_doc || **name != "RUSTDOCFLAGS");
        let set = of_target.filter_map(|name| {
            let value = env::var(name).ok().filter(|value| !value.is_empty())?;
            Some(for_a_shell(name, value))
        });
        // `cargo run` becomes the program that it runs, so it isn't above it.
        let above = command_lines_above().find_map(|words| CargoRun::read(&words));
        let verb = if program.target.is_test {
            "test"
        } else {
            "run"
        };
        let by_build = || CargoRun {
            verb: verb.to_string(),
            options: options_by_build(program),
            ..CargoRun::default()
        };
        let mut run = above
            .filter(|_| program.target.is_test)
            .unwrap_or_else(by_build);
        run.variables = set.listed();
        run
    }

    /// Reads a command line, if it is one of cargo that builds.
    fn read(words: &[String]) -> Option<CargoRun> {
        let program = Path::new(words.first()?).file_stem()?.to_str()?;
        let is_nextest = program == "cargo-nextest";
        if program != "cargo" && !is_nextest {
            return None;
        }
        let speaker = if is_nextest {
            Speaker::Nextest
        } else {
            Speaker::Cargo
        };
        let (verb, options) = options::read(&words[1..], speaker);
        let mut run = CargoRun {
            verb,
            ..CargoRun::default()
        };
        for option in &options {
            run.options.extend_from_slice(&option.words);
        }
        if is_nextest || matches!(run.verb.as_str(), "t" | "nextest") {
            run.verb = "test".to_string();
        }
        match run.verb.as_str() {
            "" => None,
            "r" => Some(CargoRun {
                verb: "run".to_string(),
                ..run
            }),
            "bench" | "b" | "build" => Some(CargoRun {
                verb: "test".to_string(),
                ..run
            }),
            _ => Some(run),
        }
    }
}

/// Returns a variable with its value as somebody would write it. In one of them, a character that
/// isn't shown stands between the flags.
fn for_a_shell(name: &str, value: String) -> (String, String) {
    if name == "CARGO_ENCODED_RUSTFLAGS" && !value.contains(' ') {
        ("RUSTFLAGS".to_string(), value.replace('\x1f', " "))
    } else {
        (name.to_string(), value)
    }
}

/// Returns the options that are known without cargo's command line: the profile by the folder of
/// the program, and the patch of tokio unless a manifest has it.
fn options_by_build(program: &Program) -> Vec<String> {
    let mut options = vec![];
    let folder = program.path.parent().map(|folder| {
        if folder.ends_with("deps") || folder.ends_with("examples") {
            folder.parent().unwrap_or(folder)
        } else {
            folder
        }
    });
    let profile = folder.filter(|folder| folder.starts_with(&program.target_folder));
    let profile = profile.and_then(|folder| folder.file_name()?.to_str());
    match profile {
        None | Some("debug") => {}
        Some("release") => options.push("--release".to_string()),
        Some(profile) => {
            options.push("--profile".to_string());
            options.push(profile.to_string());
        }
    }
    let has_patch = |folder: &Path| {
        let manifest = fs::read_to_string(folder.join("Cargo.toml"));
        manifest.is_ok_and(|text| text.contains("tokio-recorded"))
    };
    if let Some(patch) = patch().filter(|_| !program.package_folder.ancestors().any(has_patch)) {
        let path = patch.replace('\\', "\\\\").replace('"', "\\\"");
        options.push("--config".to_string());
        options.push(format!("patch.crates-io.tokio.path=\"{path}\""));
    }
    options
}

/// How many processes above this one are looked at. Above a test in documentation are two of it and
/// rustdoc's.
const LOOKED_AT: usize = 6;

/// Returns the command lines of the processes above this one, the nearest first, where the system
/// shows them as files.
fn command_lines_above() -> impl Iterator<Item = Vec<String>> {
    let mut process = parent();
    let lines = std::iter::from_fn(move || {
        let folder = Path::new("/proc").join(process?.to_string());
        process = fs::read_to_string(folder.join("stat"))
            .ok()
            .and_then(|stat| parent_in(&stat));
        let line = fs::read(folder.join("cmdline")).ok()?;
        let words = line
            .split(|byte| *byte == 0)
            .map(|word| String::from_utf8_lossy(word).into_owned());
        let mut words: Vec<_> = words.listed();
        words.pop();
        Some(words)
    });
    lines.take(LOOKED_AT)
}

#[cfg(unix)]
fn parent() -> Option<u32> {
    Some(std::os::unix::process::parent_id())
}

#[cfg(not(unix))]
fn parent() -> Option<u32> {
    None
}

/// Returns the number of the parent in what the system says of a process. The name before it is in
/// brackets, and may have brackets itself.
fn parent_in(stat: &str) -> Option<u32> {
    let (_, after_name) = stat.rsplit_once(')')?;
    let parent: u32 = after_name.split_whitespace().nth(1)?.parse().ok()?;
    Some(parent).filter(|parent| *parent != 0)
}

#[cfg(test)]
mod tests {
    use super::*;

    fn read(words: &[&str]) -> Option<(String, String)> {
        let words: Vec<_> = words.iter().map(|word| word.to_string()).collect();
        CargoRun::read(&words).map(|run| (run.verb, run.options.join(" ")))
    }

    #[test]
    fn what_the_build_had_is_said_again() {
        for (words, verb, options) in [
            (&["cargo", "test"][..], "test", ""),
            (
                &["/usr/bin/cargo", "t", "-q", "it_ends", "--", "--nocapture"],
                "test",
                "",
            ),
            (
                &[
                    "cargo",
                    "--config",
                    "a=\"b c\"",
                    "test",
                    "-p",
                    "shop",
                    "--release",
                    "--config=d=1",
                ],
                "test",
                "--config a=\"b c\" --release --config d=1",
            ),
            (
                &[
                    "cargo",
                    "test",
                    "--test",
                    "bus",
                    "-Fx",
                    "--features",
                    "y",
                    "-j",
                    "2",
                    "--manifest-path",
                    "a/Cargo.toml",
                    "name",
                ],
                "test",
                "-Fx --features y --manifest-path a/Cargo.toml",
            ),
            (
                &[
                    "cargo-nextest",
                    "nextest",
                    "run",
                    "--profile",
                    "ci",
                    "--cargo-profile",
                    "fast",
                    "-E",
                    "test(x)",
                ],
                "test",
                "--profile fast",
            ),
            (
                &["cargo", "+nightly", "-Z", "x", "ci", "name"],
                "ci",
                "-Z x",
            ),
            (&["cargo", "bench", "--bench", "speed"], "test", ""),
        ] {
            let wanted = Some((verb.to_string(), options.to_string()));
            assert_eq!(read(words), wanted, "{words:?}");
        }
        assert_eq!(read(&["bash", "-c", "cargo test"]), None);
        assert_eq!(read(&["cargo", "--version"]), None);
        assert_eq!(read(&[]), None);
    }

    #[test]
    fn flags_are_written_with_blanks() {
        let written = |name: &str, value: &str| {
            let (name, value) = for_a_shell(name, value.to_string());
            format!("{name}={value}")
        };
        let encoded = "CARGO_ENCODED_RUSTFLAGS";
        assert_eq!(written(encoded, "--cfg\x1fa"), "RUSTFLAGS=--cfg a");
        assert_eq!(written("RUSTFLAGS", "--cfg a"), "RUSTFLAGS=--cfg a");
        let raw = "--cfg\x1fa=\"b c\"";
        assert_eq!(written(encoded, raw), format!("{encoded}={raw}"));
    }

    #[test]
    fn the_parent_is_behind_a_name_with_brackets() {
        assert_eq!(parent_in("12 (a) b) S 7 12 12 0"), Some(7));
        assert_eq!(parent_in("1 (init) S 0 1"), None);
    }

    #[cfg(target_os = "linux")]
    #[test]
    fn the_cargo_that_runs_this_test_is_found() {
        let run = CargoRun::of(Program::this());
        let is_below_cargo = command_lines_above().any(|words| CargoRun::read(&words).is_some());
        assert!(!is_below_cargo || run.verb == "test", "{run:?}");
    }
}
