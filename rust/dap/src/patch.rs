//! The patch of tokio: a package in its place, with which a test's channels are recorded though no
//! source names them. Only the command line of cargo has it, so it has to be found.

use crate::{Answer, Refusal};
use serde_json::Value;
use std::fmt;
use std::fs;
use std::path::{Path, PathBuf};

/// How the folder of a package that stands for tokio begins, and the whole of it in a checkout.
const FOLDER: &str = "tokio-recorded";

/// A patch, as cargo takes it behind `--config`.
#[derive(Clone, Debug, PartialEq, Eq)]
pub(crate) struct Patch(String);

impl Patch {
    /// Returns the patch that a test needs, if this is the line by which it says so.
    pub(crate) fn offered_by(line: &str) -> Option<Patch> {
        let (_, why) = line.split_once(" recorded nothing: ")?;
        let (_, offer) = why.split_once("With the patch")?;
        let (_, word) = offer.split_once(": cargo test --config '")?;
        let word = word.trim_end().strip_suffix('\'')?;
        word.starts_with("patch.crates-io.tokio.")
            .then(|| Patch(word.to_string()))
    }

    /// Returns cargo's words for it.
    pub(crate) fn words(&self) -> [&str; 2] {
        ["--config", &self.0]
    }

    /// Returns the patch for a build whose metadata cargo has told, or `None` where the build has a
    /// package in tokio's place already.
    ///
    /// It is the package that a test of this build has written for its version of tokio, or the one
    /// beside the crate.
    pub(crate) fn of_build(metadata: &Value) -> Answer<Option<Patch>> {
        let all = metadata.get("packages").and_then(Value::as_array);
        let all: Vec<_> = all.into_iter().flatten().filter_map(Package::of).collect();
        if all.iter().any(Package::stands_for_tokio) {
            return Ok(None);
        }
        let version = all.iter().find(|it| it.is_tokio()).map(|it| it.version);
        let target = metadata.get("target_directory").and_then(Value::as_str);
        let written = target.zip(version).map(|(target, version)| {
            let folder = Path::new(target).join("yovanelum");
            folder.join(format!("{FOLDER}-{version}"))
        });
        let beside = all.iter().find_map(|it| it.patch_beside(version?));
        let written = written.filter(|folder| folder.join("Cargo.toml").is_file());
        let found = beside.or_else(|| written.as_deref().map(by_path));
        found.map(Some).ok_or_else(|| {
            Refusal::new("the run was recorded with the patch of tokio, which isn't found here: give its words as `cargoArgs`")
        })
    }
}

impl fmt::Display for Patch {
    fn fmt(&self, f: &mut fmt::Formatter<'_>) -> fmt::Result {
        write!(f, "the patch of tokio: --config '{}'", self.0)
    }
}

fn by_path(folder: &Path) -> Patch {
    // A backslash is no character of a path in TOML.
    let folder = folder.display().to_string().replace('\\', "/");
    Patch(format!("patch.crates-io.tokio.path=\"{folder}\""))
}

/// A package of a build, as cargo's metadata have it.
struct Package<'a> {
    name: &'a str,
    version: &'a str,
    source: Option<&'a str>,
    folder: PathBuf,
}

impl<'a> Package<'a> {
    fn of(package: &'a Value) -> Option<Package<'a>> {
        let text = |key| package.get(key).and_then(Value::as_str);
        Some(Package {
            name: text("name")?,
            version: text("version")?,
            source: text("source"),
            folder: Path::new(text("manifest_path")?).parent()?.to_path_buf(),
        })
    }

    /// Whether it is tokio as a registry has it.
    fn is_tokio(&self) -> bool {
        let is_of_registry = |source: &str| source.starts_with("registry+");
        self.name == "tokio" && self.source.is_some_and(is_of_registry)
    }

    fn stands_for_tokio(&self) -> bool {
        let folder = self.folder.file_name().unwrap_or_default();
        self.name == "tokio" && folder.to_string_lossy().starts_with(FOLDER)
    }

    /// Returns the patch by the package in this one's folder, if this is the crate and that is for
    /// this version. Of a crate by git it would be another package, so the test has written one.
    fn patch_beside(&self, version: &str) -> Option<Patch> {
        if self.name != "yovanelum" || self.source.is_some() {
            return None;
        }
        let folder = self.folder.join(FOLDER);
        let manifest = fs::read_to_string(folder.join("Cargo.toml")).ok()?;
        let line = format!("version = \"{version}\"");
        let is_its = manifest.lines().any(|it| it == line);
        is_its.then(|| by_path(&folder))
    }
}

#[cfg(test)]
mod tests {
    use super::*;

    #[test]
    fn the_line_of_a_test_that_records_nothing_has_its_patch() {
        let word = "patch.crates-io.tokio.path=\"/it's/tokio-recorded\"";
        for of_version in ["", " for tokio 1.24.2, as in Cargo.lock"] {
            let line = format!(
                "yovanelum: a recorded nothing: are tokio's channels swapped? With the patch{of_version}: cargo test --config '{word}'\n"
            );
            let patch = Patch::offered_by(&line).unwrap();
            assert_eq!(patch.words(), ["--config", word]);
        }
        for line in [
            "yovanelum: a recorded nothing: the test created no channel that belongs to its recorder",
            "With the patch: cargo test --config 'patch.crates-io.tokio.path=\"/x\"'",
            "a recorded nothing: With the patch: cargo test --config 'build.rustc-wrapper=\"/x\"'",
        ] {
            assert_eq!(Patch::offered_by(line), None, "{line}");
        }
    }
}
