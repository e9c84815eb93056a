//! The reports that failing tests have left in the folder `target/yovanelum` of a workspace: for
//! each test its journal, with the names beside it.

use super::workspace::{CommandFailed, Workspace};
use std::cmp::Reverse;
use std::fs;
use std::path::{Path, PathBuf};
use std::time::SystemTime;
use yovanelum::{Json, read_json};

/// What the name of a journal has more if a replay has written it.
const REPLAYED: &str = ".replayed";

/// What it has more if it is of a run that passed.
const PASSED: &str = ".passed";

/// A journal of a test.
#[derive(Clone, Debug)]
pub struct FoundJournal {
    pub path: PathBuf,
    pub written: SystemTime,
    pub package: String,
    /// The path by which the test harness knows the test.
    pub test: String,
    /// The name that its recorder has, which is that path unless the test gives another one.
    pub name: String,
    /// What failed, in one line.
    pub failed: String,
}

impl FoundJournal {
    fn read(path: PathBuf) -> Option<FoundJournal> {
        let written = fs::metadata(&path).and_then(|file| file.modified()).ok()?;
        let names = fs::read_to_string(path.with_extension("names")).ok()?;
        let names = read_json(&names).ok()?;
        let test = names.get("test")?;
        let text = |key| Some(test.get(key)?.as_text()?.to_string());
        let (name, thread) = (text("name")?, text("thread")?);
        Some(FoundJournal {
            written,
            package: text("package")?,
            // A runtime's thread has no name of a test.
            test: if is_path(&thread) {
                thread
            } else {
                name.clone()
            },
            failed: failed_in(&names).unwrap_or_default(),
            name,
            path,
        })
    }

    /// Whether a test that is given by this word is this one.
    fn is_of(&self, word: &str) -> bool {
        let ends = |path: &str| path == word || path.ends_with(&format!("::{word}"));
        ends(&self.test) || ends(&self.name)
    }

    /// Whether a replay has written it.
    pub fn is_replayed(&self) -> bool {
        let stem = self.path.file_stem().unwrap_or_default().to_string_lossy();
        stem.ends_with(REPLAYED)
    }

    /// Whether it is of a run that passed.
    pub fn has_passed(&self) -> bool {
        let stem = self.path.file_stem().unwrap_or_default().to_string_lossy();
        stem.ends_with(PASSED)
    }

    /// Whether a schedule beside it has steps that are calls of tokio's own.
    pub fn has_points(&self) -> bool {
        let schedule = fs::read_to_string(self.path.with_extension("schedule"));
        schedule.is_ok_and(|text| text.lines().any(|line| line == "points"))
    }

    /// Returns the journal of the last run that passed, which may not be there.
    pub fn passed(&self) -> PathBuf {
        let stem = self.path.file_stem().unwrap_or_default().to_string_lossy();
        self.path.with_file_name(format!("{stem}{PASSED}.journal"))
    }

    /// Returns cargo's words for the test alone.
    pub fn words(&self) -> Vec<String> {
        let folder = self
            .path
            .parent()
            .and_then(Path::file_name)
            .unwrap_or_default();
        let folder = folder.to_string_lossy();
        let mut words = vec!["-p".to_string(), self.package.clone()];
        match folder.split_once('-') {
            Some(("target", _)) => {}
            Some((kind, name)) => words.extend([format!("--{kind}"), name.to_string()]),
            None => words.push(format!("--{folder}")),
        }
        words
    }
}

fn is_path(thread: &str) -> bool {
    let is_word =
        |word: &str| !word.is_empty() && word.chars().all(|c| c.is_alphanumeric() || c == '_');
    thread != "main" && thread.split("::").all(is_word)
}

/// Returns what failed: what was found first, or else what the test said.
fn failed_in(names: &Json) -> Option<String> {
    let account = names.get("account")?;
    let first = account.get("facts").and_then(|facts| facts.items().first());
    let found = first.and_then(|fact| fact.get("text")?.items().first()?.as_text());
    let said = account
        .get("failed")
        .and_then(|failed| failed.get("message")?.as_text());
    let text = found.or(said)?;
    text.lines().next().map(str::to_string)
}

/// Returns the journals of a workspace, the last one first.
pub fn all(workspace: &Workspace) -> Vec<FoundJournal> {
    let mut found = vec![];
    // The folder of a package has one for each of its targets.
    for target in folders(&workspace.own())
        .iter()
        .flat_map(|package| folders(package))
    {
        let files = fs::read_dir(target).into_iter().flatten().flatten();
        let paths = files.map(|file| file.path());
        let journals = paths.filter(|path| path.extension().is_some_and(|it| it == "journal"));
        found.extend(journals.filter_map(FoundJournal::read));
    }
    found.sort_by_key(|journal| Reverse(journal.written));
    found
}

fn folders(folder: &Path) -> Vec<PathBuf> {
    let entries = fs::read_dir(folder).into_iter().flatten().flatten();
    entries
        .map(|entry| entry.path())
        .filter(|path| path.is_dir())
        .collect()
}

/// Returns the last journal of the test that this word gives, of a run that failed unless none has,
/// and which others there are that it may also mean. Without a word, the last one of all.
///
/// # Errors
///
/// Returns an error if there is none.
pub fn last(
    workspace: &Workspace,
    word: Option<&str>,
) -> Result<(FoundJournal, Vec<FoundJournal>), CommandFailed> {
    let mut found = all(workspace);
    found.retain(|journal| !journal.is_replayed() && word.is_none_or(|word| journal.is_of(word)));
    // Both halves are in their order before.
    found.sort_by_key(FoundJournal::has_passed);
    let mut found = found.into_iter();
    let Some(first) = found.next() else {
        let folder = workspace.own();
        return Err(CommandFailed {
            line: Some(match word {
                Some(word) => format!(
                    "no test `{word}` has left a report in {}: `cargo yovanelum list` names those that have",
                    folder.display()
                ),
                None => format!("no test has left a report in {}", folder.display()),
            }),
            status: 4,
        });
    };
    let is_other = |other: &FoundJournal| {
        word.is_some() && other.path.parent() != first.path.parent() || other.test != first.test
    };
    let others = found
        .filter(|other| word.is_some() && is_other(other))
        .collect();
    Ok((first, others))
}

#[cfg(test)]
mod tests {
    use super::*;

    fn journal(path: &str, test: &str) -> FoundJournal {
        FoundJournal {
            path: path.into(),
            written: SystemTime::UNIX_EPOCH,
            package: "my-shop".into(),
            test: test.into(),
            name: "it ends".into(),
            failed: String::new(),
        }
    }

    #[test]
    fn a_test_is_given_by_its_path_or_the_end_of_it() {
        let journal = journal("/t/yovanelum/my-shop/lib/a.journal", "tests::it_ends");
        for word in ["tests::it_ends", "it_ends", "it ends"] {
            assert!(journal.is_of(word), "{word}");
        }
        for word in ["ends", "it", "s::it_ends", ""] {
            assert!(!journal.is_of(word), "{word}");
        }
    }

    #[test]
    fn cargo_s_words_for_a_test_are_those_of_its_target() {
        for (folder, words) in [
            ("lib", "-p my-shop --lib"),
            ("doc", "-p my-shop --doc"),
            ("test-the-orders", "-p my-shop --test the-orders"),
            ("bin-till", "-p my-shop --bin till"),
            ("target-own", "-p my-shop"),
        ] {
            let journal = journal(&format!("/t/yovanelum/my-shop/{folder}/a.journal"), "a");
            assert_eq!(journal.words().join(" "), words);
        }
    }
}
