//! Where the sources are on this machine, and whether they are as they were when the test ran.

use serde_json::{Value, json};
use std::collections::BTreeMap;
use std::fs;
use std::path::{Path, PathBuf};
use yovanelum::debugger::recorded::{Recorded, checksum_of};

/// How many bytes a source has at most of which the checksum is compared.
const MOST_BYTES: u64 = 16_777_216;

/// Where sources are looked for.
pub(crate) struct Sources {
    // In the order in which they are tried.
    roots: Vec<PathBuf>,
    // Beginnings of paths, and what is there in their place.
    replaced: Vec<(String, String)>,
    // By the path as the names have it.
    found: BTreeMap<String, Option<PathBuf>>,
}

impl Sources {
    /// Looks in a folder that was given, in that of the names, and in those above the journal.
    pub(crate) fn new(
        root: Option<&str>,
        replaced: Vec<(String, String)>,
        journal: &Path,
    ) -> Sources {
        let journal = fs::canonicalize(journal).unwrap_or_else(|_| journal.to_path_buf());
        let given = root.map(PathBuf::from);
        let above = journal.ancestors().skip(1).map(Path::to_path_buf);
        Sources {
            roots: given.into_iter().chain(above).collect(),
            replaced,
            found: BTreeMap::new(),
        }
    }

    /// Finds all sources of a run. Returns a line for each that isn't here, or was changed since
    /// the run.
    pub(crate) fn faults(&mut self, names: &Recorded) -> Vec<String> {
        if let Some(root) = names.root() {
            self.roots
                .insert(self.roots.len().min(1), PathBuf::from(root));
        }
        let mut faults = vec![];
        for at in names.locations() {
            if self.found.contains_key(&at.file) {
                continue;
            }
            let path = self.find(&at.file);
            faults.extend(fault(
                &at.file,
                path.as_deref(),
                names.source_checksum(&at.file),
            ));
            self.found.insert(at.file.clone(), path);
        }
        faults
    }

    fn find(&self, file: &str) -> Option<PathBuf> {
        let replaced = self.replaced.iter();
        let replaced = replaced
            .filter_map(|(from, to)| Some(format!("{to}{}", file.strip_prefix(from.as_str())?)));
        let names = replaced.chain([file.to_string()]);
        // Joined to an absolute path, a folder counts for nothing.
        let paths = names.flat_map(|name| self.roots.iter().map(move |root| root.join(&name)));
        let path = paths.into_iter().find(|path| path.is_file())?;
        Some(fs::canonicalize(&path).unwrap_or(path))
    }

    /// Returns the file as the names have it, of a path as the editor has it.
    pub(crate) fn file_of(&self, path: &str) -> Option<&str> {
        let real = fs::canonicalize(path).unwrap_or_else(|_| PathBuf::from(path));
        // A source that isn't here may be named by where it would be.
        let is_it = |(file, found): &(&String, &Option<PathBuf>)| match found {
            Some(found) => *found == real,
            None => real.ends_with(file.as_str()),
        };
        let here = self.found.iter().find(is_it);
        here.map(|(file, _)| file.as_str())
    }

    /// Returns the file of a reference that [`Sources::source`] made.
    pub(crate) fn file_of_reference(&self, reference: u64) -> Option<&str> {
        let index = usize::try_from(reference).ok()?.checked_sub(1)?;
        self.found.keys().nth(index).map(String::as_str)
    }

    /// The files of the run, as the names have them.
    pub(crate) fn files(&self) -> impl Iterator<Item = &str> {
        self.found.keys().map(String::as_str)
    }

    /// Returns a source as the protocol has it. One that isn't here has a reference, by which the
    /// editor asks for a text.
    pub(crate) fn source(&self, file: &str) -> Value {
        let name = Path::new(file).file_name().unwrap_or_default();
        let name = name.to_string_lossy();
        match self.found.get(file) {
            Some(Some(path)) => json!({"name": name, "path": path.to_string_lossy()}),
            _ => {
                let before = self.found.keys().take_while(|known| known.as_str() != file);
                json!({
                    "name": name,
                    "path": file,
                    "sourceReference": before.count() + 1,
                    "origin": "the calls that were recorded: the source isn't on this machine",
                    "presentationHint": "deemphasize",
                })
            }
        }
    }
}

/// Returns what is wrong with a source, if something is.
fn fault(file: &str, path: Option<&Path>, checksum: Option<u64>) -> Option<String> {
    let Some(path) = path else {
        return Some(format!(
            "{file} isn't found: give the folder that it is in as `root`"
        ));
    };
    let is_small = fs::metadata(path).is_ok_and(|data| data.len() <= MOST_BYTES);
    let text = is_small.then(|| fs::read(path).ok()).flatten()?;
    (checksum? != checksum_of(&text))
        .then(|| format!("{file} has changed since the run: lines may be off"))
}

/// What the client counts lines and columns from: 0 or 1. Names count from 1.
#[derive(Clone, Copy)]
pub(crate) struct Bases {
    pub(crate) line: u64,
    pub(crate) column: u64,
}

impl Bases {
    /// Returns a line of the client's, counted from 1.
    pub(crate) fn line(self, line: u64) -> u32 {
        u32::try_from(line.saturating_add(1 - self.line)).unwrap_or(u32::MAX)
    }

    pub(crate) fn column(self, column: u64) -> u32 {
        u32::try_from(column.saturating_add(1 - self.column)).unwrap_or(u32::MAX)
    }

    /// Returns a line as the client counts it.
    pub(crate) fn shown_line(self, line: u64) -> u64 {
        line.saturating_sub(1 - self.line)
    }

    pub(crate) fn shown_column(self, column: u64) -> u64 {
        column.saturating_sub(1 - self.column)
    }
}
