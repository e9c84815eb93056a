//! Which package a launch is of, as cargo tells it: by its words, or by the folder in which it
//! runs.

use std::fs;
use std::path::{Path, PathBuf};

/// The manifest of a package.
const MANIFEST: &str = "Cargo.toml";

/// Words for cargo by which packages are named.
const PACKAGE: [&str; 2] = ["-p", "--package"];

/// Words by which several are tested.
const SEVERAL: [&str; 3] = ["--workspace", "--all", "--exclude"];

/// Words that `cargo metadata` takes as `cargo test` does, those with a value first.
const OF_METADATA: [&str; 2] = ["--config", "--manifest-path"];
const ALONE: [&str; 3] = ["--offline", "--locked", "--frozen"];

/// What words for cargo select, where it runs in a folder.
pub(crate) struct Selected<'a> {
    words: &'a [String],
    folder: &'a Path,
}

impl<'a> Selected<'a> {
    pub(crate) fn by(words: &'a [String], folder: &'a Path) -> Selected<'a> {
        Selected { words, folder }
    }

    /// Returns the values of an option, which is followed by them or joined with them.
    fn values(&self, name: &'a str) -> impl Iterator<Item = &'a str> {
        let next = self.words.iter().skip(1).map(Some).chain([None]);
        let words = self.words.iter().zip(next);
        words.filter_map(move |(word, next)| match word.strip_prefix(name)? {
            "" => next.map(String::as_str),
            joined if name.starts_with("--") => joined.strip_prefix('='),
            joined => Some(joined.strip_prefix('=').unwrap_or(joined)),
        })
    }

    /// Returns the one package whose tests are run, or `None` where they may be several or it isn't
    /// known: in the folder of a workspace that is no package.
    pub(crate) fn package(&self) -> Option<String> {
        if self
            .words
            .iter()
            .any(|word| SEVERAL.contains(&word.as_str()))
        {
            return None;
        }
        let mut named = PACKAGE.iter().flat_map(|name| self.values(name));
        match (named.next(), named.next()) {
            (Some(one), None) => {
                let name = one.split(['@', ':']).next()?;
                Some(name.to_string()).filter(|_| !one.contains('/'))
            }
            (Some(_), Some(_)) => None,
            (None, _) => name_in(&fs::read_to_string(self.manifest()?).ok()?),
        }
    }

    /// Returns the manifest that is named, or the nearest above the folder.
    fn manifest(&self) -> Option<PathBuf> {
        if let Some(named) = self.values("--manifest-path").next() {
            return Some(self.folder.join(named));
        }
        let mut above = self.folder.ancestors().map(|it| it.join(MANIFEST));
        above.find(|manifest| manifest.is_file())
    }

    /// Returns the folder to build in, if it is named.
    pub(crate) fn target(&self) -> Option<PathBuf> {
        let named = self.values("--target-dir").next();
        named.map(|named| self.folder.join(named))
    }

    /// Returns the words that are for `cargo metadata` too.
    pub(crate) fn words(&self) -> Vec<String> {
        let with_value = OF_METADATA.iter().flat_map(|name| {
            let values = self.values(name);
            values.flat_map(|value| [name.to_string(), value.to_string()])
        });
        let alone = self
            .words
            .iter()
            .filter(|word| ALONE.contains(&word.as_str()));
        with_value.chain(alone.cloned()).collect()
    }
}

/// Returns the name of the package that a manifest is of. That of a workspace may be of none.
fn name_in(manifest: &str) -> Option<String> {
    let lines = manifest.lines().map(str::trim);
    let mut of_package = lines.skip_while(|line| *line != "[package]").skip(1);
    let of_package = of_package
        .by_ref()
        .take_while(|line| !line.starts_with('['));
    let values = of_package.filter_map(|line| {
        let (key, value) = line.split_once('=')?;
        (key.trim() == "name").then(|| value.trim())
    });
    let quoted = values.into_iter().next()?;
    let quote = quoted
        .chars()
        .next()
        .filter(|it| ['"', '\''].contains(it))?;
    let name = quoted[1..].split(quote).next()?;
    Some(name.to_string())
}

/// Returns the folder that cargo builds in, as far as it is seen: the nearest `target` above a
/// folder that has journals, or that folder's own.
pub(crate) fn target_above(folder: &Path) -> PathBuf {
    let mut above = folder.ancestors().map(|it| it.join("target"));
    let found = above.find(|target| target.join("yovanelum").is_dir());
    found.unwrap_or_else(|| folder.join("target"))
}

#[cfg(test)]
mod tests {
    use super::*;

    #[test]
    fn the_name_is_that_of_the_section_package() {
        for (manifest, name) in [
            ("[package]\nname = \"shop\"\n", Some("shop")),
            (
                "[lib]\nname = \"a\"\n[package] \n name='b' # it\n",
                Some("b"),
            ),
            ("[workspace]\nmembers = []\n", None),
            (
                "[package]\nversion = \"1.0.0\"\n[lib]\nname = \"a\"\n",
                None,
            ),
            ("", None),
        ] {
            assert_eq!(name_in(manifest).as_deref(), name, "{manifest}");
        }
    }

    #[test]
    fn words_name_one_package_or_several() {
        let package = |words: &[&str]| {
            let words: Vec<_> = words.iter().map(|word| word.to_string()).collect();
            let selected = Selected::by(&words, Path::new("/there/is/no/such/folder"));
            selected.package()
        };
        for words in [
            &["-p", "shop"][..],
            &["-pshop"],
            &["-p=shop"],
            &["--package=shop@0.1.0"],
            &["--test", "x", "--package", "shop"],
        ] {
            assert_eq!(package(words).as_deref(), Some("shop"), "{words:?}");
        }
        for words in [
            &["-p", "a", "--package=b"][..],
            &["-p", "a", "--workspace"],
            &["-p"],
            &["--packages"],
            &[],
        ] {
            assert_eq!(package(words), None, "{words:?}");
        }
    }
}
