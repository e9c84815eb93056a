//! The names of tokio's two modules, from its source, are all here.

use std::collections::BTreeSet;
use std::fs;
use std::path::Path;

/// Returns the names of the public functions and types of a source in Rust.
fn names(text: &str) -> BTreeSet<String> {
    let words = ["pub fn ", "pub async fn ", "pub struct ", "pub enum "];
    let lines = text.lines().map(str::trim_start);
    let names = lines.filter_map(|line| words.iter().find_map(|word| line.strip_prefix(word)));
    names
        .map(|name| name.split(|c: char| !c.is_alphanumeric() && c != '_'))
        .filter_map(|mut parts| parts.next().map(str::to_string))
        .collect()
}

/// The text of a file, or of all files in a folder.
fn text(path: &Path) -> String {
    match fs::read_dir(path) {
        Ok(entries) => entries.map(|entry| text(&entry.unwrap().path())).collect(),
        Err(_) => fs::read_to_string(path).unwrap(),
    }
}

#[test]
fn all_of_both_modules_are_here() {
    let theirs = Path::new("/usr/share/cargo/registry/tokio-1.24.2/src/sync");
    // The tests run in a copy of this folder.
    let source = std::env::var("YOVANELUM_SOURCE").unwrap_or("../src".into());
    let ours = Path::new(&source).join("channels");
    for (module, least) in [("broadcast", 14), ("watch", 18)] {
        let wanted = names(&text(&theirs.join(format!("{module}.rs"))));
        assert!(wanted.len() >= least, "{wanted:?}");
        let mut here = names(&text(&ours.join(format!("{module}.rs"))));
        here.extend(names(&text(&ours.join(module))));
        let missing: Vec<_> = wanted.difference(&here).collect();
        assert!(missing.is_empty(), "{module}: {missing:?}");
    }
}
