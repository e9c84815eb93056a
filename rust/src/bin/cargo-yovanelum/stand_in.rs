//! The package that replaces the workspace's tokio, and cargo's options for it. It re-exports
//! the real one, whose sources are copied from where cargo has them, so nothing is fetched twice.

use super::lacking;
use super::lock::REGISTRY;
use super::manifest::{by_git, of_version};
use super::points;
use super::workspace::{CommandFailed, Package, Workspace};
use std::fmt::Write;
use std::path::{Path, PathBuf};
use std::{fs, io, process};

/// The sources of this crate, as they were when the command was built.
const BUILT_FROM: &str = env!("CARGO_MANIFEST_DIR");

/// The source of crates.io, as cargo writes it.
const CRATES_IO: [&str; 2] = [
    "registry+https://github.com/rust-lang/crates.io-index",
    "sparse+https://index.crates.io/",
];

/// Which values have texts by themselves.
#[derive(Clone, Copy, Debug, PartialEq, Eq)]
pub enum ShownValues {
    /// Those of types that this crate knows.
    Known,
    /// Those of all types that have `Debug`, as a feature of this crate has it.
    Debug,
}

impl ShownValues {
    /// Returns what the folder's name has more, so that both builds stay built.
    fn suffix(self) -> &'static str {
        match self {
            ShownValues::Known => "",
            ShownValues::Debug => "-debug-values",
        }
    }

    /// Returns a manifest that asks for the feature, if that is wanted.
    fn asked_for(self, manifest: String) -> String {
        match self {
            ShownValues::Known => manifest,
            ShownValues::Debug => manifest.replace("[\"patch\"]", "[\"patch\", \"debug_values\"]"),
        }
    }
}

/// How the package that stands for tokio is built.
#[derive(Clone, Copy, Debug)]
pub struct Build {
    pub values: ShownValues,
    /// Whether calls of tokio's own channels and locks are steps.
    pub has_points: bool,
}

/// Where this crate is taken from.
struct Crate {
    /// Its folder, beside which the package is that stands for tokio.
    folder: PathBuf,
    /// How a manifest asks for it.
    asked: String,
    /// Whether the workspace has it. Its methods may then be called by their own name too.
    is_own: bool,
}

impl Crate {
    /// Returns that of the workspace, if that has it. Two of them would be two crates, whose types
    /// differ.
    fn of(workspace: &Workspace) -> Result<Crate, CommandFailed> {
        let own = workspace
            .packages
            .iter()
            .find(|package| package.name == "yovanelum");
        let here = PathBuf::from(BUILT_FROM);
        let found = match own {
            Some(own) => Crate {
                asked: own
                    .source
                    .as_deref()
                    .and_then(by_git)
                    .unwrap_or_else(|| by_path(&own.folder)),
                folder: own.folder.clone(),
                is_own: true,
            },
            None => Crate {
                asked: by_path(&here),
                folder: here,
                is_own: false,
            },
        };
        if found.folder.join("tokio-recorded/src/lib.rs").is_file() {
            return Ok(found);
        }
        Err(CommandFailed::new(format!(
            "the sources of yovanelum have no folder tokio-recorded in {}: install the command again, from a checkout or by git",
            found.folder.display()
        )))
    }
}

fn by_path(folder: &Path) -> String {
    format!("path = \"{}\"", shown(folder))
}

/// Returns a path as it may stand in a TOML text: there a backslash is no character of a path.
fn shown(path: &Path) -> String {
    path.to_string_lossy().replace('\\', "/")
}

/// Writes the package that stands for this tokio, and returns the file that tells cargo of it, for
/// `--config`. What is there as it is to be is left, so that cargo builds nothing again.
///
/// # Errors
///
/// Returns an error if the sources of this crate are gone, or a file can't be read or written.
pub fn write(
    workspace: &Workspace,
    tokio: &Package,
    build: Build,
) -> Result<PathBuf, CommandFailed> {
    let of_crate = Crate::of(workspace)?;
    let manifest = of_crate.folder.join("tokio-recorded/Cargo.toml");
    let stand_ins = workspace.own().join("stand-in");
    let points = if build.has_points { "-points" } else { "" };
    let name = format!("tokio-{}{points}", tokio.version);
    // Both builds have the real one from the same folder. From another one it is built again.
    let registry = stand_ins.join(&name).join("registry");
    let folder = stand_ins.join(name + build.values.suffix());
    let written = fs::read_to_string(&manifest).and_then(|manifest| {
        copy_sources(&tokio.folder, &registry.join("tokio"), build.has_points)?;
        let manifest = manifest_of(&manifest, tokio, &of_crate);
        put(
            &folder.join("Cargo.toml"),
            &build.values.asked_for(manifest),
        )?;
        let config = folder.join("config.toml");
        let lacking = if of_crate.is_own {
            String::new()
        } else {
            lacking::in_folder(&tokio.folder)
        };
        put(&config, &config_of(&folder, &registry, tokio, &lacking))?;
        Ok(config)
    });
    written
        .map_err(|error| CommandFailed::new(format!("{} isn't written: {error}", folder.display())))
}

/// Returns the manifest of the package that stands for this tokio.
fn manifest_of(manifest: &str, tokio: &Package, of_crate: &Crate) -> String {
    let fitted = of_version(
        manifest,
        &tokio.version,
        &of_crate.asked,
        &shown(&of_crate.folder),
    );
    // This program reads the runs, so that no test is linked to what does.
    let fitted = fitted.replace(
        "features = [\"patch\"]",
        "default-features = false, features = [\"patch\"]",
    );
    let real = format!(
        "real-tokio = {{ package = \"tokio\", version = \"={}\", registry = \"yovanelum\", default-features = false }}",
        tokio.version
    );
    let mut out = String::new();
    for line in fitted.lines() {
        let is_real = line.starts_with("real-tokio = ");
        let _ = writeln!(out, "{}", if is_real { &real } else { line });
        if line == "[features]" {
            // Those that this version has and the checkout's doesn't.
            let own = |name: &&String| {
                !fitted
                    .lines()
                    .any(|line| line.split(" = ").next() == Some(name.as_str()))
            };
            for name in tokio.features.iter().filter(own) {
                let _ = writeln!(out, "{name} = [\"real-tokio/{name}\"]");
            }
        }
    }
    out
}

/// Returns what cargo is told: the patch, where the real tokio is, and which methods it lacks.
fn config_of(folder: &Path, registry: &Path, tokio: &Package, lacking: &str) -> String {
    let patched = match tokio.source.as_deref() {
        Some(source) if !CRATES_IO.contains(&source) => source.trim_start_matches("registry+"),
        _ => "crates-io",
    };
    let (folder, registry) = (shown(folder), shown(registry));
    let lacking = if lacking.is_empty() {
        String::new()
    } else {
        format!("\n[env]\nYOVANELUM_TOKIO_LACKS = \"{lacking}\"\n")
    };
    format!(
        "[patch.\"{patched}\"]\ntokio = {{ path = \"{folder}\" }}\n\n[registries.yovanelum]\nindex = \"{REGISTRY}\"\n\n\
         [source.yovanelum]\nregistry = \"{REGISTRY}\"\nreplace-with = \"yovanelum-folder\"\n\n\
         [source.yovanelum-folder]\ndirectory = \"{registry}\"\n{lacking}"
    )
}

/// Copies the sources of tokio, unless they were. `has_points` adds steps to them.
fn copy_sources(from: &Path, to: &Path, has_points: bool) -> io::Result<()> {
    const SUMS: &str = ".cargo-checksum.json";
    if to.join(SUMS).is_file() {
        return Ok(());
    }
    let beside = to.with_extension(format!("{}.part", process::id()));
    copy_folder(from, &beside)?;
    if has_points {
        points::add(&beside)?;
    }
    // Cargo asks for it. No file is compared with a checksum: cargo did that when it fetched them.
    fs::write(beside.join(SUMS), "{\"files\":{}}")?;
    let _ = fs::remove_dir_all(to);
    fs::rename(&beside, to)
}

fn copy_folder(from: &Path, to: &Path) -> io::Result<()> {
    fs::create_dir_all(to)?;
    for entry in fs::read_dir(from)? {
        let (path, name) = entry.map(|entry| (entry.path(), entry.file_name()))?;
        // A build's folder is none of its sources.
        if path.is_dir() && name != "target" {
            copy_folder(&path, &to.join(&name))?;
        } else if path.is_file() {
            fs::write(to.join(&name), fs::read(&path)?)?;
        }
    }
    Ok(())
}

/// Writes a text, unless it is there.
fn put(path: &Path, text: &str) -> io::Result<()> {
    if fs::read_to_string(path).is_ok_and(|it| it == text) {
        return Ok(());
    }
    path.parent().map_or(Ok(()), fs::create_dir_all)?;
    let beside = path.with_extension(format!("{}.part", process::id()));
    fs::write(&beside, text)?;
    fs::rename(&beside, path)
}

#[cfg(test)]
mod tests {
    use super::*;

    fn tokio(source: &str) -> Package {
        Package {
            name: "tokio".into(),
            version: "1.24.2".into(),
            source: Some(source.into()),
            folder: "/r/tokio".into(),
            dependencies: vec![],
            features: vec!["rt".into(), "later".into()],
        }
    }

    #[test]
    fn the_manifest_has_the_version_and_the_features_of_the_workspace_s_tokio() {
        let manifest = "[package]\nname = \"tokio\"\nversion = \"1.53.2\"\n\n[dependencies]\nreal-tokio = { git = \"x\", tag = \"tokio-1.53.2\" }\n\
                        yovanelum = { path = \"..\", optional = true }\n\n[features]\nrt = [\"real-tokio/rt\"]\n\n[workspace]\n";
        let of_crate = Crate {
            folder: "/y/rust".into(),
            asked: by_path(Path::new("/y/rust")),
            is_own: false,
        };
        let wanted = "[package]\nname = \"tokio\"\nversion = \"1.24.2\"\n\n[dependencies]\n\
                      real-tokio = { package = \"tokio\", version = \"=1.24.2\", registry = \"yovanelum\", default-features = false }\n\
                      yovanelum = { path = \"/y/rust\", optional = true }\n\n[features]\nlater = [\"real-tokio/later\"]\nrt = [\"real-tokio/rt\"]\n\n\
                         [workspace]\n\n\
                      [lib]\npath = \"/y/rust/tokio-recorded/src/lib.rs\"\n";
        assert_eq!(
            manifest_of(manifest, &tokio(CRATES_IO[0]), &of_crate),
            wanted
        );
    }

    #[test]
    fn the_patch_is_of_the_registry_that_tokio_comes_from() {
        let head = |source| {
            let config = config_of(Path::new("/s"), Path::new("/r"), &tokio(source), "");
            config.lines().next().unwrap().to_string()
        };
        assert_eq!(head(CRATES_IO[0]), "[patch.\"crates-io\"]");
        assert_eq!(head(CRATES_IO[1]), "[patch.\"crates-io\"]");
        assert_eq!(
            head("registry+https://a.example/index"),
            "[patch.\"https://a.example/index\"]"
        );
        assert_eq!(
            head("sparse+https://a.example/"),
            "[patch.\"sparse+https://a.example/\"]"
        );
    }
}
