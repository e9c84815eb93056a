//! Writes the crates that are searched: `rw_desk` and `rw_seat` as they are, each with every bug, and all with smaller numbers.

#[path = "bugs.rs"]
mod bugs;

use bugs::{BUGS, Bug, Edit, SMALLER};
use std::path::{Path, PathBuf};
use std::{env, fs};

/// The crates below, which have no threads.
const BELOW: [&str; 7] = [
    "rw_law",
    "rw_handles",
    "rw_ring",
    "rw_broadcast",
    "rw_watch",
    "rw_world",
    "rw_journal",
];

/// The crates whose threads wait, each with what is played with it.
const WAITING: [(&str, &str); 2] = [("rw_desk", "locks"), ("rw_seat", "seats")];

/// A file's name and its text.
type File = (String, String);

/// Makes an edit if it is of these files. Its text has to occur once.
fn edit(files: &mut [File], edit: &Edit) {
    let Some((_, text)) = files.iter_mut().find(|(name, _)| name == edit.file) else {
        return;
    };
    let times = text.matches(edit.old).count();
    assert_eq!(times, 1, "in {}: {:?}", edit.file, edit.old);
    *text = text.replacen(edit.old, edit.new, 1);
}

/// The files of a crate, with smaller numbers.
fn files_of(krate: &str, folder: &Path, more: &str) -> Vec<File> {
    let mut files = Vec::new();
    for entry in fs::read_dir(folder.join(more)).unwrap() {
        let name = entry.unwrap().file_name().into_string().unwrap();
        let inner = format!("{more}{name}");
        if folder.join(&inner).is_dir() {
            files.extend(files_of(krate, folder, &format!("{inner}/")));
        } else {
            let text = fs::read_to_string(folder.join(&inner)).unwrap();
            files.push((format!("{krate}/{inner}"), text));
        }
    }
    SMALLER.iter().for_each(|it| edit(&mut files, it));
    files
}

/// Where a crate's module is: the waiting ones are in the right version.
fn at_versions(text: &str, own: &str, version: &str) -> String {
    WAITING.iter().fold(text.to_string(), |text, (krate, _)| {
        let version = if *krate == own { version } else { "right" };
        let there = format!("crate::versions::{version}::{krate}::");
        text.replace(&format!("crate::source::{krate}::"), &there)
    })
}

/// Writes files, and returns the line that declares their module.
fn write(out: &Path, files: &[File]) -> String {
    for (name, text) in files {
        let at = out.join(name);
        fs::create_dir_all(at.parent().unwrap()).unwrap();
        fs::write(at, text).unwrap();
    }
    let krate = files[0].0.split('/').next().unwrap();
    module(krate, &out.join(krate).join("mod.rs"))
}

/// The line that declares a module at this path.
fn module(name: &str, at: &Path) -> String {
    format!("#[path = {at:?}]\npub mod {name};\n")
}

/// Writes a version of a waiting crate, and returns the lines that declare it with what is played.
fn write_version(places: &Places, krate: &str, played: &str, bug: Option<&Bug>) -> String {
    let version = bug.map_or("right", |bug| bug.name);
    let mut files = files_of(krate, &places.source.join(krate), "");
    bug.iter().for_each(|bug| edit(&mut files, &bug.edit));
    for (_, text) in &mut files {
        *text = at_versions(text, krate, version);
    }
    let played_at = places.here.join(format!("src/played/{played}.rs"));
    write(&places.out.join(version), &files) + &module(played, &played_at)
}

/// Where the package is, where its output goes, and where the proved source is.
struct Places {
    here: PathBuf,
    out: PathBuf,
    source: PathBuf,
}

impl Places {
    fn new() -> Places {
        let here = PathBuf::from(env::var_os("CARGO_MANIFEST_DIR").unwrap());
        Places {
            out: PathBuf::from(env::var_os("OUT_DIR").unwrap()),
            source: here.join("../../../rust/core/src/source"),
            here,
        }
    }

    /// Writes the crates below, and returns the lines that declare them.
    fn below(&self) -> String {
        let files = BELOW.map(|krate| files_of(krate, &self.source.join(krate), ""));
        files.iter().map(|files| write(&self.out, files)).collect()
    }

    /// Writes the versions, and returns the lines that declare them.
    fn versions(&self) -> String {
        let right = WAITING.map(|(krate, played)| write_version(self, krate, played, None));
        let mut versions = format!("pub mod right {{\n{}}}\n", right.concat());
        for bug in BUGS {
            let waiting = WAITING
                .iter()
                .find(|(krate, _)| bug.edit.file.starts_with(krate));
            let (krate, played) = waiting.unwrap();
            let inside = write_version(self, krate, played, Some(&bug));
            versions += &format!("pub mod {} {{\n{inside}}}\n", bug.name);
        }
        versions
    }
}

fn main() {
    let places = Places::new();
    println!("cargo::rerun-if-changed={}", places.source.display());
    println!("cargo::rerun-if-changed=build.rs");
    println!("cargo::rerun-if-changed=bugs.rs");
    fs::write(places.out.join("source.rs"), places.below()).unwrap();
    fs::write(places.out.join("versions.rs"), places.versions()).unwrap();
}
