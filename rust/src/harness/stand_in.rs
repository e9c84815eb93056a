//! The package that stands for tokio, for the version of tokio that this build has.

mod manifest;

use super::files;
use crate::harness::program::Program;
use manifest::{by_git, of_version, packages, value};
use std::path::Path;
use std::{fs, io};

/// The package that stands for tokio, which a checkout has beside this one.
const FACADE: &str = concat!(env!("CARGO_MANIFEST_DIR"), "/tokio-recorded");

/// Returns the command that runs a test with a package in the place of this build's tokio, and what
/// to know of it.
///
/// That package is the one of a checkout. Where `Cargo.lock` has another version of tokio, it is a
/// manifest over the same sources, which is written into the folder of the build. Without a
/// checkout it is the one that users of a published package have.
///
/// # Errors
///
/// Returns an error if the manifest can't be written.
pub(super) fn offer() -> io::Result<String> {
    let Ok(manifest) = fs::read_to_string(Path::new(FACADE).join("Cargo.toml")) else {
        return Ok(with_patch("", "../yovanelum/rust/tokio-recorded"));
    };
    let program = Program::this();
    let mut above = program.package_folder.ancestors();
    let lock = above.find_map(|folder| fs::read_to_string(folder.join("Cargo.lock")).ok());
    let found = lock.and_then(|lock| fitted(&manifest, &lock));
    let Some((version, fitted)) = found else {
        return Ok(with_patch("", FACADE));
    };
    let of_build = program.target_folder.join("yovanelum");
    let folder = of_build.join(format!("tokio-recorded-{version}"));
    put(&folder.join("Cargo.toml"), &fitted)?;
    let of_version = format!(" for tokio {version}, as in Cargo.lock");
    Ok(with_patch(&of_version, &folder.to_string_lossy()))
}

/// Returns the folder of the package that stands for tokio in this build, which has one: that of
/// the checkout, or the one whose manifest fits the version of tokio that `Cargo.lock` has.
pub(super) fn folder_of_build() -> String {
    let program = Program::this();
    let mut above = program.package_folder.ancestors();
    let lock = above.find_map(|folder| fs::read_to_string(folder.join("Cargo.lock")).ok());
    let version = lock.as_deref().and_then(stood_for);
    let fitted = version.map(|version| {
        let of_build = program.target_folder.join("yovanelum");
        of_build.join(format!("tokio-recorded-{version}"))
    });
    let fitted = fitted.filter(|folder| folder.join("Cargo.toml").is_file());
    fitted.map_or_else(
        || FACADE.to_string(),
        |folder| folder.to_string_lossy().into_owned(),
    )
}

/// Returns the version of the tokio of a lock file that no registry has.
fn stood_for(lock: &str) -> Option<&str> {
    let tokio = packages(lock, "tokio").find(|package| value(package, "source").is_none())?;
    value(tokio, "version")
}

fn with_patch(of_version: &str, folder: &str) -> String {
    // A backslash is no character of a path in TOML.
    let folder = folder.replace('\\', "/");
    format!(
        "With the patch{of_version}: cargo test --config 'patch.crates-io.tokio.path=\"{folder}\"'"
    )
}

/// Writes a manifest, unless it is there. Cargo may read it meanwhile, so it is never there in
/// part.
fn put(path: &Path, manifest: &str) -> io::Result<()> {
    if fs::read_to_string(path).is_ok_and(|text| text == manifest) {
        return Ok(());
    }
    path.parent().map_or(Ok(()), fs::create_dir_all)?;
    let beside = files::beside(path);
    let written = fs::write(&beside, manifest).and_then(|()| fs::rename(&beside, path));
    written.inspect_err(|_| {
        let _ = fs::remove_file(&beside);
    })
}

/// Returns the version of tokio that a lock file has, and the manifest that stands for it. If this
/// one does, there is none.
///
/// A package of git is another one than that of its checkout. So where the crate comes by git, the
/// manifest asks for it as the lock file says.
fn fitted(manifest: &str, lock: &str) -> Option<(String, String)> {
    let tokio = packages(lock, "tokio").find(|package| {
        let has = |key, start: &str| value(package, key).is_some_and(|it| it.starts_with(start));
        has("source", "registry+") && has("version", "1.")
    })?;
    let (version, own) = (value(tokio, "version")?, value(manifest, "version")?);
    let by_git = packages(lock, "yovanelum").find_map(|package| by_git(value(package, "source")?));
    if version == own && by_git.is_none() {
        return None;
    }
    let here = env!("CARGO_MANIFEST_DIR").replace('\\', "/");
    let asked = by_git.unwrap_or_else(|| format!("path = \"{here}\""));
    let fitted = of_version(manifest, version, &asked, &here);
    Some((version.to_string(), fitted))
}

#[cfg(test)]
mod tests {
    use super::*;

    const MANIFEST: &str = "[package]\nname = \"tokio\"\nversion = \"1.53.2\"\n\n[dependencies]\nreal-tokio = { tag = \"tokio-1.53.2\" }\n\
                            yovanelum = { path = \"..\", optional = true }\n\n[workspace]\n";

    /// A lock file of a package with tokio, in which this crate has this line, and these lines
    /// follow.
    fn lock(of_crate: &str, rest: &str) -> String {
        format!(
            "version = 4\n\n[[package]]\nname = \"tokio\"\nversion = \"1.24.2\"\nsource = \"registry+https://example.net/index\"\n\n\
             [[package]]\nname = \"yovanelum\"\nversion = \"0.1.0\"\n{of_crate}{rest}"
        )
    }

    #[test]
    fn a_manifest_follows_the_version_of_the_lock_file() {
        let unused = "\n[[patch.unused]]\nname = \"tokio\"\nversion = \"1.53.2\"\n";
        let (version, fitted) = fitted(MANIFEST, &lock("", unused)).unwrap();
        assert_eq!(version, "1.24.2");
        let here = env!("CARGO_MANIFEST_DIR").replace('\\', "/");
        let wanted = format!(
            "[package]\nname = \"tokio\"\nversion = \"1.24.2\"\n\n[dependencies]\nreal-tokio = {{ tag = \"tokio-1.24.2\" }}\n\
             yovanelum = {{ path = \"{here}\", optional = true }}\n\n[workspace]\n\n[lib]\npath = \"{here}/tokio-recorded/src/lib.rs\"\n"
        );
        assert_eq!(fitted, wanted);
    }

    #[test]
    fn the_checkout_stands_for_its_own_version_and_where_no_registry_has_tokio() {
        let own = MANIFEST.replace("1.53.2", "1.24.2");
        assert_eq!(fitted(&own, &lock("", "")), None);
        assert_eq!(fitted(MANIFEST, "version = 4\n"), None);
        let patched = lock("", "").replace("source = \"registry+https://example.net/index\"\n", "");
        assert_eq!(fitted(MANIFEST, &patched), None);
    }

    #[test]
    fn the_version_that_a_package_without_a_registry_stands_for_is_known() {
        let patched = lock("", "").replace("source = \"registry+https://example.net/index\"\n", "");
        assert_eq!(stood_for(&patched), Some("1.24.2"));
        assert_eq!(stood_for(&lock("", "")), None);
    }

    #[test]
    fn a_crate_by_git_is_asked_for_as_the_lock_file_has_it() {
        let own = MANIFEST.replace("1.53.2", "1.24.2");
        let sources = [
            (
                "git+https://example.net/y#0a1b",
                "git = \"https://example.net/y\"",
            ),
            (
                "git+file:///y?branch=main#0a1b",
                "git = \"file:///y\", branch = \"main\"",
            ),
        ];
        for (source, asked) in sources {
            let of_crate = format!("source = \"{source}\"\n");
            for manifest in [MANIFEST, &own] {
                let (_, fitted) = fitted(manifest, &lock(&of_crate, "")).unwrap();
                assert!(
                    fitted.contains(&format!("\nyovanelum = {{ {asked}, optional = true }}\n")),
                    "{fitted}"
                );
            }
        }
    }

    #[test]
    fn the_manifest_of_the_checkout_asks_for_this_crate_in_one_place() {
        let Ok(manifest) = fs::read_to_string(Path::new(FACADE).join("Cargo.toml")) else {
            return; // A published package has none.
        };
        assert_eq!(manifest.matches(manifest::ASKED_FOR).count(), 1);
        let version = value(&manifest, "version").unwrap();
        assert!(
            manifest.contains(&format!("tag = \"tokio-{version}\"")),
            "{manifest}"
        );
    }
}
