//! The words behind `cargo yovanelum test`, which are cargo's own: what this command has to know of
//! them, and no more.

use super::options::{self, Speaker};

/// The options of the build that `cargo metadata` takes too.
const OF_METADATA: [&str; 11] = [
    "--config",
    "--features",
    "-F",
    "--manifest-path",
    "--lockfile-path",
    "-Z",
    "--all-features",
    "--no-default-features",
    "--locked",
    "--offline",
    "--frozen",
];

/// The words of a command of cargo's.
#[derive(Clone, Debug, Default, PartialEq, Eq)]
pub struct Words {
    /// Those before `--`.
    pub before: Vec<String>,
    /// Those from `--` on, which are the test program's.
    pub behind: Vec<String>,
}

impl Words {
    /// Splits words at the first `--`.
    pub fn of(words: &[String]) -> Words {
        let end = words.iter().position(|word| word == "--");
        let (before, behind) = words.split_at(end.unwrap_or(words.len()));
        Words {
            before: before.to_vec(),
            behind: behind.to_vec(),
        }
    }

    /// Returns the value of the last option with one of these names.
    pub fn value_of(&self, names: &[&str]) -> Option<&str> {
        let mut words = self.before.iter();
        let mut found = None;
        while let Some(word) = words.next() {
            match word.split_once('=') {
                Some((name, value)) if names.contains(&name) => found = Some(value),
                _ if names.contains(&word.as_str()) => found = words.next().map(String::as_str),
                _ => {}
            }
        }
        found
    }

    /// Removes an option with a value, which is this command's and not cargo's, and returns the
    /// value.
    pub fn take(&mut self, name: &str) -> Option<String> {
        let with_value = format!("{name}=");
        let is_it = |word: &String| word == name || word.starts_with(&with_value);
        let at = self.before.iter().position(is_it)?;
        let word = self.before.remove(at);
        match word.strip_prefix(&with_value) {
            Some(value) => Some(value.to_string()),
            None => (at < self.before.len()).then(|| self.before.remove(at)),
        }
    }

    /// Removes an option without a value, which is this command's, and returns whether it was
    /// there.
    pub fn take_alone(&mut self, name: &str) -> bool {
        let at = self.before.iter().position(|word| word == name);
        at.map(|at| self.before.remove(at)).is_some()
    }

    /// Returns the options by which `cargo metadata` sees the same workspace.
    pub fn of_metadata(&self) -> Vec<String> {
        let (_, options) = options::read(&self.before, Speaker::Cargo);
        let asked = options
            .into_iter()
            .filter(|option| OF_METADATA.contains(&option.name.as_str()));
        asked.flat_map(|option| option.words).collect()
    }

    /// Returns the options that choose what is built, for another command about the same build.
    pub fn of_build(&self, speaker: Speaker) -> Vec<String> {
        let (_, options) = options::read(&self.before, speaker);
        options
            .into_iter()
            .flat_map(|option| option.words)
            .collect()
    }

    /// Returns the words for a lock file in which tokio is replaced: it isn't the workspace's,
    /// which was looked at before.
    pub fn over_another_lock(&self) -> Vec<String> {
        let words = self.before.iter().filter(|word| *word != "--locked");
        words
            .map(|word| {
                if word == "--frozen" {
                    "--offline".to_string()
                } else {
                    word.clone()
                }
            })
            .collect()
    }
}

#[cfg(test)]
mod tests {
    use super::*;

    fn words(text: &str) -> Words {
        let words: Vec<_> = text.split_whitespace().map(str::to_string).collect();
        Words::of(&words)
    }

    #[test]
    fn words_are_split_where_the_test_program_s_begin() {
        let split = words("-p shop orders -- --exact --");
        assert_eq!(split.before, ["-p", "shop", "orders"]);
        assert_eq!(split.behind, ["--", "--exact", "--"]);
        assert_eq!(words("--lib").behind, Vec::<String>::new());
    }

    #[test]
    fn options_are_read_in_both_forms() {
        let given = words("--manifest-path a/Cargo.toml --target-dir=b c");
        assert_eq!(given.value_of(&["--manifest-path"]), Some("a/Cargo.toml"));
        assert_eq!(given.value_of(&["--target-dir"]), Some("b"));
        assert_eq!(given.value_of(&["--target"]), None);
        let mut given = words("--report-after 5 c");
        assert_eq!(given.take("--report-after"), Some("5".to_string()));
        assert_eq!(given, words("c"));
        let mut given = words("c --report-after=5");
        assert_eq!(given.take("--report-after"), Some("5".to_string()));
        assert_eq!(given, words("c"));
    }

    #[test]
    fn what_chooses_the_build_is_kept_and_what_chooses_tests_is_not() {
        let given = words(
            "-p shop --release --features=a,b --test orders -Fc --locked --target x no_order -- --exact",
        );
        assert_eq!(
            given.of_build(Speaker::Cargo).join(" "),
            "--release --features a,b -Fc --locked --target x"
        );
        assert_eq!(given.of_metadata().join(" "), "--features a,b -Fc --locked");
    }

    #[test]
    fn another_lock_file_may_be_written() {
        assert_eq!(words("--locked a").over_another_lock(), ["a"]);
        assert_eq!(words("--frozen a").over_another_lock(), ["--offline", "a"]);
    }
}
