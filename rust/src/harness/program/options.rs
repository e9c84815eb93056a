//! Cargo's options that choose what is built: what a later command has to say for the same build.
//! The command `cargo yovanelum` reads this file too.

/// Options that choose what is built, each with the value behind it.
const WITH_VALUE: [&str; 10] = [
    "--config",
    "--features",
    "-F",
    "--profile",
    "--target",
    "--target-dir",
    "--manifest-path",
    "--lockfile-path",
    "-Z",
    "-C",
];

/// The same, without a value.
const ALONE: [&str; 8] = [
    "--release",
    "-r",
    "--all-features",
    "--no-default-features",
    "--locked",
    "--offline",
    "--frozen",
    "--ignore-rust-version",
];

/// Options with a value that choose what is tested or say how.
const LEFT_OUT: [&str; 20] = [
    "-p",
    "--package",
    "--exclude",
    "--test",
    "--bin",
    "--example",
    "--bench",
    "-j",
    "--jobs",
    "--color",
    "--message-format",
    "-E",
    "--filterset",
    "-P",
    "--retries",
    "--test-threads",
    "--partition",
    "--run-ignored",
    "--failure-output",
    "--success-output",
];

/// Whose words they are. Of nextest, `--profile` is about its own settings, and `--cargo-profile`
/// about cargo's.
#[derive(Clone, Copy, Debug, PartialEq, Eq)]
pub(crate) enum Speaker {
    Cargo,
    Nextest,
}

/// An option that chooses what is built, as cargo takes it.
#[derive(Clone, Debug, PartialEq, Eq)]
pub(crate) struct BuildOption {
    /// Its name, such as `--features`.
    pub(crate) name: String,
    /// The words in which it is said: the name alone or with the value, or both in one.
    pub(crate) words: Vec<String>,
}

/// Returns the first word that is no option, such as `test`, or else nothing, and the options that
/// choose what is built. The words end before `--`.
pub(crate) fn read(words: &[String], speaker: Speaker) -> (String, Vec<BuildOption>) {
    let mut verb = String::new();
    let mut options = vec![];
    let mut words = words.iter().take_while(|word| *word != "--");
    while let Some(word) = words.next() {
        let (name, value) = match word.split_once('=') {
            Some((name, value)) if name.starts_with('-') => (name, Some(value.to_string())),
            _ => (word.as_str(), None),
        };
        let name = match name {
            "--profile" if speaker == Speaker::Nextest => "-P",
            "--cargo-profile" => "--profile",
            name => name,
        };
        if WITH_VALUE.contains(&name) {
            let value = value.or_else(|| words.next().cloned());
            options.push(BuildOption::of(name, value));
        } else if LEFT_OUT.contains(&name) {
            drop(value.or_else(|| words.next().cloned()));
        } else if ALONE.contains(&name) {
            options.push(BuildOption::of(name, None));
        } else if let Some(short) = joined(word) {
            options.push(BuildOption {
                name: short.to_string(),
                words: vec![word.clone()],
            });
        } else if !word.starts_with(['-', '+']) && verb.is_empty() {
            verb.clone_from(word);
        }
    }
    (verb, options)
}

impl BuildOption {
    fn of(name: &str, value: Option<String>) -> BuildOption {
        let mut words = vec![name.to_string()];
        words.extend(value);
        BuildOption {
            name: name.to_string(),
            words,
        }
    }
}

/// Returns the short option of a word that has its value too.
fn joined(word: &str) -> Option<&'static str> {
    let shorts = &["-F", "-Z", "-C"];
    shorts
        .iter()
        .find(|short| word.starts_with(**short))
        .copied()
}

#[cfg(test)]
mod tests {
    use super::*;

    fn read(words: &str, speaker: Speaker) -> String {
        let words: Vec<_> = words.split_whitespace().map(str::to_string).collect();
        let (verb, options) = super::read(&words, speaker);
        let said = options.iter().map(|option| option.words.join(" "));
        format!("{verb}: {}", said.collect::<Vec<_>>().join(", "))
    }

    #[test]
    fn what_chooses_the_build_is_kept_and_what_chooses_tests_is_not() {
        for (words, wanted) in [
            ("t -q it_ends -- --release", "t: "),
            (
                "--config a=1 test -p shop --release --config=d=1",
                "test: --config a=1, --release, --config d=1",
            ),
            (
                "test --test bus -Fx --features y,z -j 2 --color always name",
                "test: -Fx, --features y,z",
            ),
            (
                "test --manifest-path a/Cargo.toml --locked --target x",
                "test: --manifest-path a/Cargo.toml, --locked, --target x",
            ),
            ("+nightly -Z x ci name", "ci: -Z x"),
            ("test --profile fast", "test: --profile fast"),
            ("", ": "),
        ] {
            assert_eq!(read(words, Speaker::Cargo), wanted, "{words}");
        }
    }

    #[test]
    fn a_profile_of_nextest_is_none_of_the_build() {
        let words = "run --profile ci --cargo-profile=fast -E test(x) --retries 2";
        assert_eq!(read(words, Speaker::Nextest), "run: --profile fast");
    }
}
