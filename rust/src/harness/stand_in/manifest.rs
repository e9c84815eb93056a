//! The manifest of the package that stands for tokio, and what it takes from a lock file. The
//! command `cargo yovanelum` reads this file too.

/// How the manifest of a checkout asks for this crate.
pub(crate) const ASKED_FOR: &str = "yovanelum = { path = \"..\"";

/// Returns the manifest that stands for a version of tokio over the sources in this folder of a
/// checkout. `asked` says where this crate comes from.
pub(crate) fn of_version(manifest: &str, version: &str, asked: &str, checkout: &str) -> String {
    let own = value(manifest, "version").unwrap_or_default();
    let manifest = manifest
        .replace(own, version)
        .replace(ASKED_FOR, &format!("yovanelum = {{ {asked}"));
    let library = format!("[lib]\npath = \"{checkout}/tokio-recorded/src/lib.rs\"\n");
    format!("{manifest}\n{library}")
}

/// Returns the packages of this name in a lock file, as their lines. A patch that wasn't used is
/// none.
pub(crate) fn packages<'a>(lock: &'a str, name: &'a str) -> impl Iterator<Item = &'a str> {
    let parts = lock
        .split("[[")
        .filter_map(|part| part.strip_prefix("package]]"));
    parts.filter(move |part| value(part, "name") == Some(name))
}

/// Returns the value of the first line for a key.
pub(crate) fn value<'a>(text: &'a str, key: &str) -> Option<&'a str> {
    text.lines().find_map(|line| {
        let (name, value) = line.split_once(" = ")?;
        (name == key).then(|| value.trim_matches('"'))
    })
}

/// Returns how a manifest asks for a package by git that has this source in a lock file, such as
/// `git+ADDRESS?branch=BRANCH#COMMIT`.
pub(crate) fn by_git(source: &str) -> Option<String> {
    let (asked, _commit) = source.strip_prefix("git+")?.split_once('#')?;
    let (address, query) = asked.split_once('?').unwrap_or((asked, ""));
    let which = query.split('&').filter_map(|part| part.split_once('='));
    let which = which.map(|(name, value)| format!(", {name} = \"{value}\""));
    Some(format!("git = \"{address}\"{}", which.collect::<String>()))
}
