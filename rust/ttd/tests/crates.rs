//! That the program is made of the crates that it names: cargo gives it each, the shim passes calls
//! to it, and the proved source makes such calls. `rust/test ttd` also asks for the lint of unused
//! dependencies, which isn't in `src/lib.rs`: where cargo builds std, that fires for crates of std.

use std::fs;
use std::path::{Path, PathBuf};

const CRATES: [&str; 4] = ["clap", "indexmap", "itoa", "serde_json"];

fn here() -> &'static Path {
    Path::new(env!("CARGO_MANIFEST_DIR"))
}

fn read(path: impl AsRef<Path>) -> String {
    let path = here().join(path);
    fs::read_to_string(&path).unwrap_or_else(|error| panic!("{}: {error}", path.display()))
}

/// Returns the files of a folder, also of those in it.
fn files_of(folder: PathBuf) -> Vec<PathBuf> {
    let mut files = Vec::new();
    for entry in fs::read_dir(folder).unwrap() {
        let path = entry.unwrap().path();
        if path.is_dir() {
            files.extend(files_of(path));
        } else {
            files.push(path);
        }
    }
    files
}

/// Returns the sources of the proved crates of which the program is made.
fn proved_sources() -> Vec<String> {
    let list = read("../core/src/source/program.rs");
    let modules = list
        .lines()
        .filter_map(|line| line.strip_prefix("pub mod "));
    modules
        .map(|module| {
            here()
                .join("../core/src/source")
                .join(module.trim_end_matches(';'))
        })
        .flat_map(files_of)
        .map(read)
        .collect()
}

#[test]
fn cargo_gives_the_program_these_crates_alone() {
    let manifest = read("Cargo.toml");
    let (_, behind) = manifest.split_once("[dependencies]\n").unwrap();
    let (listed, _) = behind.split_once("\n\n").unwrap();
    let names: Vec<&str> = listed
        .lines()
        .filter(|line| !line.starts_with('#'))
        .map(|line| line.split_once(" = ").unwrap().0)
        .collect();
    assert_eq!(names, CRATES);
}

#[test]
fn the_lock_file_names_a_registrys_version_of_each() {
    let lock = read("../../Cargo.lock");
    for name in CRATES {
        let package = format!("[[package]]\nname = \"{name}\"\nversion = ");
        let (_, entry) = lock.split_once(&package).unwrap();
        let entry = entry.split("\n\n").next().unwrap();
        assert!(entry.contains("\nsource = \"registry+"), "{entry}");
    }
}

#[test]
fn the_shim_passes_calls_to_each() {
    for name in CRATES {
        let shim = match name {
            "itoa" => read("src/shim.rs"),
            _ => read(format!("src/shim/{name}.rs")),
        };
        let code: Vec<&str> = shim
            .lines()
            .filter(|line| !line.trim_start().starts_with("//"))
            .collect();
        let named = format!("::{name}");
        assert!(code.iter().any(|line| line.contains(&named)), "{name}");
    }
}

#[test]
fn the_proved_source_calls_each() {
    let sources = proved_sources();
    for name in CRATES {
        let import = format!("use crate::shim::{name}::");
        let users = sources.iter().filter(|source| source.contains(&import));
        assert!(users.count() > 0, "no proved source calls {name}");
    }
}
