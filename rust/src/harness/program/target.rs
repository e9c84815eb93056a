//! The build target that a program was made from.

use std::path::{Component, Path, PathBuf};
use std::{env, fs};
use yovanelum_record::listed::IntoList;

/// What kind of target it is.
#[derive(Clone, Copy, Debug, PartialEq, Eq)]
pub(crate) enum TargetKind {
    Lib,
    Bin,
    Test,
    Example,
    Bench,
    /// A test in the documentation of a library.
    Doc,
    /// One whose sources are where cargo doesn't look by itself, or a program that cargo hasn't
    /// made.
    Other,
}

/// A build target of a package.
#[derive(Clone, Debug, PartialEq, Eq)]
pub(crate) struct Target {
    pub(crate) kind: TargetKind,
    pub(crate) name: String,
    /// Whether the program is a test harness, or another that `cargo test` runs.
    pub(crate) is_test: bool,
}

impl Target {
    /// Returns the target of the program with this path, whose crate has this root file.
    pub(super) fn of(
        program: &Path,
        crate_root: Option<&Path>,
        package_folder: &Path,
        package: Option<&str>,
    ) -> Target {
        let stem = program.file_stem().unwrap_or_default().to_string_lossy();
        if stem == "rust_out" {
            let name = env::var("CARGO_CRATE_NAME").unwrap_or_else(|_| stem.to_string());
            return Target {
                kind: TargetKind::Doc,
                name,
                is_test: true,
            };
        }
        let (name, hash) = name_and_hash(&stem);
        let Some(_) = hash else {
            let kind = match program.parent() {
                Some(folder) if folder.ends_with("examples") => TargetKind::Example,
                _ => TargetKind::Bin,
            };
            return Target {
                kind,
                name: name.to_string(),
                is_test: false,
            };
        };
        let found = match crate_root {
            Some(root) => of_source(root, package, name),
            None => of_folder(package_folder, name),
        };
        let (kind, name) = found.unwrap_or((TargetKind::Other, name.to_string()));
        Target {
            kind,
            name,
            is_test: true,
        }
    }

    /// Returns the name of the folder that the files of its tests are in. No two targets of a
    /// package have the same.
    pub(crate) fn folder_name(&self) -> String {
        let kind = match self.kind {
            TargetKind::Lib => return "lib".to_string(),
            TargetKind::Doc => return "doc".to_string(),
            TargetKind::Bin => "bin",
            TargetKind::Test => "test",
            TargetKind::Example => "example",
            TargetKind::Bench => "bench",
            TargetKind::Other => "target",
        };
        format!("{kind}-{}", self.name)
    }

    /// Returns the words by which cargo chooses it.
    pub(crate) fn words(&self) -> Vec<String> {
        let flag = match self.kind {
            TargetKind::Lib => return vec!["--lib".to_string()],
            TargetKind::Doc => return vec!["--doc".to_string()],
            TargetKind::Other => return vec![],
            TargetKind::Bin => "--bin",
            TargetKind::Test => "--test",
            TargetKind::Example => "--example",
            TargetKind::Bench => "--bench",
        };
        vec![flag.to_string(), self.name.clone()]
    }
}

/// Splits the stem of a program in the folder `deps` into the name of its crate and the hash that
/// cargo appends. One that cargo has put elsewhere under its own name has no hash.
fn name_and_hash(stem: &str) -> (&str, Option<&str>) {
    match stem.rsplit_once('-') {
        Some((name, hash)) if hash.len() == 16 && hash.bytes().all(|b| b.is_ascii_hexdigit()) => {
            (name, Some(hash))
        }
        _ => (stem, None),
    }
}

/// Returns the hash that cargo has appended to the name of the program with this path, if it has.
pub(super) fn hash_of(program: &Path) -> Option<String> {
    let stem = program.file_stem()?.to_str()?;
    name_and_hash(stem).1.map(str::to_string)
}

/// Returns the root file of the program's crate: the first source in the file that the compiler has
/// left beside the program.
pub(super) fn crate_root(program: &Path) -> Option<PathBuf> {
    sources(program).first().cloned()
}

/// Returns the sources of the program's crate, in the file that the compiler has left beside the
/// program, the root file first.
pub(super) fn sources(program: &Path) -> Vec<PathBuf> {
    let stem = program.file_stem().and_then(|stem| stem.to_str());
    let of_cargo = stem.filter(|stem| name_and_hash(stem).1.is_some());
    let beside = of_cargo.and_then(|_| fs::read_to_string(program.with_extension("d")).ok());
    beside.map_or_else(Vec::new, |text| sources_in(&text))
}

/// Returns the sources in a text that has the rules of `make`: a file, a colon, and the files that
/// it depends on.
fn sources_in(text: &str) -> Vec<PathBuf> {
    let first = text.lines().next().and_then(|line| line.split_once(": "));
    // A blank in a name stands behind a backslash.
    let sources = first.map_or_else(String::new, |(_, sources)| sources.replace("\\ ", "\0"));
    let sources = sources.split(' ').filter(|source| !source.is_empty());
    sources
        .map(|source| source.replace('\0', " ").into())
        .listed()
}

/// Returns the target of a package whose root file is this, by where cargo looks for it. A target
/// that the manifest gives another name has that of its program.
fn of_source(root: &Path, package: Option<&str>, program: &str) -> Option<(TargetKind, String)> {
    let mut parts = root.components().rev().map(|part| match part {
        Component::Normal(name) => name.to_str().unwrap_or_default(),
        _ => "",
    });
    let file = parts.next()?.strip_suffix(".rs")?;
    let (folder, above) = (
        parts.next().unwrap_or_default(),
        parts.next().unwrap_or_default(),
    );
    let (kind, name) = match (above, folder, file) {
        (_, "src", "lib") => (TargetKind::Lib, program),
        (_, "src", "main") => (TargetKind::Bin, package.unwrap_or(program)),
        (_, folder, file) if kind_of(folder).is_some() => (kind_of(folder)?, file),
        (folder, name, "main") => (kind_of(folder)?, name),
        _ => return None,
    };
    let is_same = name.replace('-', "_") == program.replace('-', "_");
    Some((kind, if is_same { name } else { program }.to_string()))
}

/// Returns the kind of the targets that cargo finds in a folder with this name.
fn kind_of(folder: &str) -> Option<TargetKind> {
    Some(match folder {
        "tests" => TargetKind::Test,
        "examples" => TargetKind::Example,
        "benches" => TargetKind::Bench,
        "bin" => TargetKind::Bin,
        _ => return None,
    })
}

/// Returns the target of the program with this name, where its root file isn't known: the test in
/// `tests/` that has the name, if no other target of the package may have it.
fn of_folder(package_folder: &Path, name: &str) -> Option<(TargetKind, String)> {
    let files = fs::read_dir(package_folder.join("tests")).ok()?;
    let named = files.filter_map(|file| {
        let path = file.ok()?.path();
        let is_target = path.is_dir() || path.extension().is_some_and(|it| it == "rs");
        let stem = path.file_stem()?.to_str()?.to_string();
        (is_target && stem.replace('-', "_") == name).then_some(stem)
    });
    let mut named = named;
    Some((TargetKind::Test, named.next()?))
}

#[cfg(test)]
mod tests {
    use super::*;

    fn of(root: &str, program: &str) -> Option<(TargetKind, String)> {
        of_source(Path::new(root), Some("my-shop"), program)
    }

    #[test]
    fn a_target_is_known_by_where_its_root_file_is() {
        for (root, program, kind, name) in [
            ("src/lib.rs", "my_shop", TargetKind::Lib, "my_shop"),
            ("shop/src/main.rs", "my_shop", TargetKind::Bin, "my-shop"),
            ("shop/src/bin/till.rs", "till", TargetKind::Bin, "till"),
            ("src/bin/till/main.rs", "till", TargetKind::Bin, "till"),
            (
                "/ws/shop/tests/my-bus.rs",
                "my_bus",
                TargetKind::Test,
                "my-bus",
            ),
            ("tests/bus/main.rs", "bus", TargetKind::Test, "bus"),
            ("tests/tests.rs", "tests", TargetKind::Test, "tests"),
            ("examples/demo.rs", "demo", TargetKind::Example, "demo"),
            ("benches/speed.rs", "speed", TargetKind::Bench, "speed"),
            ("tests/other.rs", "named", TargetKind::Test, "named"),
        ] {
            assert_eq!(of(root, program), Some((kind, name.to_string())), "{root}");
        }
        assert_eq!(of("lib.rs", "my_shop"), None);
        assert_eq!(of("source/code.rs", "my_shop"), None);
    }

    #[test]
    fn the_first_source_is_the_root_file() {
        let text = "/ws/target/debug/deps/bus-11d456fd1e430ec6.d: tests/bus.rs tests/support/mod.rs\n\nx: y\n";
        let all = ["tests/bus.rs", "tests/support/mod.rs"].map(PathBuf::from);
        assert_eq!(sources_in(text), all);
        let text = "/my\\ ws/target/bus.d: my\\ tests/bus.rs src/lib.rs\n";
        let all = ["my tests/bus.rs", "src/lib.rs"].map(PathBuf::from);
        assert_eq!(sources_in(text), all);
        assert!(sources_in("no rule\n").is_empty());
    }

    #[test]
    fn no_two_targets_of_a_package_have_one_folder() {
        let target = |kind, name: &str| Target {
            kind,
            name: name.to_string(),
            is_test: true,
        };
        let targets = [
            (target(TargetKind::Lib, "shop"), "lib", "--lib"),
            (target(TargetKind::Doc, "shop"), "doc", "--doc"),
            (target(TargetKind::Bin, "shop"), "bin-shop", "--bin shop"),
            (target(TargetKind::Test, "shop"), "test-shop", "--test shop"),
            (target(TargetKind::Test, "lib"), "test-lib", "--test lib"),
            (
                target(TargetKind::Example, "shop"),
                "example-shop",
                "--example shop",
            ),
            (
                target(TargetKind::Bench, "shop"),
                "bench-shop",
                "--bench shop",
            ),
            (target(TargetKind::Other, "shop"), "target-shop", ""),
        ];
        for (target, folder, words) in targets {
            assert_eq!(target.folder_name(), folder);
            assert_eq!(target.words().join(" "), words);
        }
    }

    #[test]
    fn a_program_of_its_own_name_is_no_test() {
        let of = |path: &str| Target::of(Path::new(path), None, Path::new("/none"), None);
        let demo = of("/ws/target/debug/examples/demo");
        assert_eq!(
            (demo.kind, demo.name.as_str(), demo.is_test),
            (TargetKind::Example, "demo", false)
        );
        let shop = of("/ws/target/debug/my-shop");
        assert_eq!(
            (shop.kind, shop.name.as_str(), shop.is_test),
            (TargetKind::Bin, "my-shop", false)
        );
        let other = of("/ws/target/debug/deps/bus-11d456fd1e430ec6");
        assert_eq!(
            (other.kind, other.name.as_str(), other.is_test),
            (TargetKind::Other, "bus", true)
        );
    }
}
