//! The files of a journal, found below a folder and read whole, for what an editor launches and for
//! what it then steps through.

use crate::{Answer, Refusal};
use std::fs;
use std::io;
use std::path::{Path, PathBuf};
use std::time::SystemTime;
use yovanelum::debugger::recorded::{read_whole, test_of};

/// How many folders deep journals are below `target/yovanelum`, and how many files are looked at.
const DEPTH: usize = 3;
const MOST_FILES: usize = 10_000;

/// The texts of a journal and its names.
pub(crate) struct Journal {
    pub(crate) path: PathBuf,
    pub(crate) names_path: PathBuf,
    pub(crate) text: Vec<u8>,
    pub(crate) names: Option<String>,
    pub(crate) warnings: Vec<String>,
}

impl Journal {
    pub(crate) fn read(path: &Path) -> Answer<Journal> {
        let text = read_whole(path).map_err(|error| {
            let path = path.display();
            Refusal(match error.kind() {
                io::ErrorKind::NotFound => format!("{path}: no such file; run the test first"),
                _ => format!("{path}: {error}"),
            })
        })?;
        let names_path = path.with_extension("names");
        let read = read_whole(&names_path)
            .and_then(|names| String::from_utf8(names).map_err(io::Error::other));
        let mut warnings = vec![];
        let shown = names_path.display();
        let names = match read {
            Ok(names) => Some(names),
            Err(error) => {
                warnings.push(match error.kind() {
                    io::ErrorKind::NotFound => {
                        format!("{shown} isn't there: calls have no lines and no names")
                    }
                    _ => format!("{shown} is left out: {error}"),
                });
                None
            }
        };
        Ok(Journal {
            path: path.to_path_buf(),
            names_path,
            text,
            names,
            warnings,
        })
    }
}

/// Returns the newest journal below a target folder, of a package and a test where they are named,
/// and not older than this.
pub(crate) fn newest(
    target: &Path,
    package: Option<&str>,
    test: Option<&str>,
    since: Option<SystemTime>,
) -> Option<PathBuf> {
    let mut journals = vec![];
    let all = target.join("yovanelum");
    match package {
        Some(package) => collect(&all.join(package), DEPTH - 1, &mut journals),
        None => collect(&all, DEPTH, &mut journals),
    }
    let newer = journals
        .into_iter()
        .filter(|(time, _)| since.is_none_or(|since| *time >= since));
    let mut newer: Vec<_> = newer.collect();
    newer.sort();
    let mut paths = newer.into_iter().rev().map(|(_, path)| path);
    paths.find(|path| test.is_none_or(|test| is_of(path, test)))
}

fn collect(folder: &Path, depth: usize, journals: &mut Vec<(SystemTime, PathBuf)>) {
    let Ok(entries) = fs::read_dir(folder) else {
        return;
    };
    for entry in entries.flatten().take(MOST_FILES) {
        let path = entry.path();
        let Ok(data) = entry.metadata() else {
            continue;
        };
        if data.is_dir() && depth > 1 {
            collect(&path, depth - 1, journals);
        } else if path.extension().is_some_and(|it| it == "journal") {
            let time = data.modified().unwrap_or(SystemTime::UNIX_EPOCH);
            journals.push((time, path));
        }
    }
}

/// Whether a journal is of the test of this name: that of its recorder, or cargo's with or without
/// its modules.
fn is_of(journal: &Path, test: &str) -> bool {
    let Some((name, thread)) = test_of(journal) else {
        return journal
            .file_stem()
            .is_some_and(|stem| stem.to_string_lossy() == test);
    };
    let is_end = thread
        .strip_suffix(test)
        .is_some_and(|rest| rest.is_empty() || rest.ends_with("::"));
    name == test || is_end
}
