//! What is known of this program: from which package and build target cargo has made it, where, and
//! how it was started.
//!
//! Nothing of it is known when the crate is compiled, since it has no build script. It is found at
//! run time, in the variables that cargo sets for what it runs, in the path of the program and the
//! file of its sources that the compiler leaves beside it, and in the command line of the cargo
//! that runs it, where the system shows that. Recorders name files and commands by it, and
//! exploring starts the program again.

mod cargo;
mod folder;
mod options;
mod target;

pub use cargo::set_patch;
pub(crate) use cargo::{CargoRun, is_patched};
pub(crate) use target::{Target, TargetKind};
use yovanelum_record::listed::{IntoList, PushAll};

use std::env;
use std::path::{self, Path, PathBuf};
use std::sync::OnceLock;

/// What is known of the program that runs.
#[derive(Debug)]
pub(crate) struct Program {
    /// The name of the package, if it is known.
    pub(crate) package: Option<String>,
    /// The folder of the package, or the working folder.
    pub(crate) package_folder: PathBuf,
    pub(crate) target: Target,
    /// The folder `target` of the build.
    pub(crate) target_folder: PathBuf,
    /// The root file of the target's crate as the compiler was given it.
    crate_root: Option<PathBuf>,
    /// Whether cargo has started it, or something that cargo has started.
    pub(crate) is_run_by_cargo: bool,
    pub(crate) path: PathBuf,
}

impl Program {
    /// Returns what is known of this program. It is found once.
    pub(crate) fn this() -> &'static Program {
        static THIS: OnceLock<Program> = OnceLock::new();
        THIS.get_or_init(Program::find)
    }

    fn find() -> Program {
        let path = env::current_exe().unwrap_or_default();
        let here = env::current_dir().unwrap_or_default();
        let crate_root = target::crate_root(&path);
        let target_folder = folder::of_build(&path, &here);
        let by_cargo = env::var_os("CARGO_MANIFEST_DIR").map(PathBuf::from);
        let is_run_by_cargo = by_cargo.is_some();
        let by_build = || package_of(&target_folder, crate_root.as_deref()?);
        let package_folder = by_cargo.or_else(by_build);
        let named = env::var("CARGO_PKG_NAME").ok().filter(|_| is_run_by_cargo);
        let package = named.or_else(|| package_name(package_folder.as_deref()?));
        let package = package.or_else(|| package_by_build(&path));
        let package_folder = package_folder.unwrap_or(here);
        Program {
            target: Target::of(
                &path,
                crate_root.as_deref(),
                &package_folder,
                package.as_deref(),
            ),
            package,
            package_folder,
            target_folder: path::absolute(&target_folder).unwrap_or(target_folder),
            crate_root,
            is_run_by_cargo,
            path,
        }
    }

    /// Returns the sources of the target's crate, if the compiler has left a list of them.
    pub(crate) fn sources(&self) -> Vec<PathBuf> {
        let sources = target::sources(&self.path);
        let some: Vec<_> = sources.iter().map(PathBuf::as_path).listed();
        let root = self.root_of(&some).unwrap_or_default();
        sources.iter().map(|source| root.join(source)).listed()
    }

    /// Returns the folder that the paths of sources are relative to, of which these are some: that
    /// of the workspace, in which cargo runs the compiler.
    pub(crate) fn root_of(&self, sources: &[&Path]) -> Option<PathBuf> {
        let mut all = self.crate_root.as_deref().into_iter().listed();
        all.push_all(sources.iter().copied());
        let relative = all.iter().filter(|path| path.is_relative());
        let found = relative.take(SOURCES_TRIED).find_map(|source| {
            let mut above = self.package_folder.ancestors();
            above.find(|folder| folder.join(source).is_file())
        });
        found.map(Path::to_path_buf)
    }
}

/// How many sources are looked for to find their root.
const SOURCES_TRIED: usize = 16;

/// Returns the folder of the package whose target has this root file, of a build in this folder:
/// the one above it that has a manifest.
fn package_of(target_folder: &Path, crate_root: &Path) -> Option<PathBuf> {
    let root = target_folder.parent()?.join(crate_root);
    let above = root.ancestors().skip(1);
    above
        .take_while(|folder| folder.starts_with(target_folder.parent().unwrap_or(folder)))
        .find(|folder| folder.join("Cargo.toml").is_file())
        .map(Path::to_path_buf)
}

/// Returns the name of the package of the program with this path, by the folder that cargo has for
/// its build: it has the package's name, and the hash that the program's own name ends with.
fn package_by_build(program: &Path) -> Option<String> {
    let hash = target::hash_of(program)?;
    let folder = program.parent().filter(|it| it.ends_with("deps"))?;
    let builds = std::fs::read_dir(folder.parent()?.join(".fingerprint")).ok()?;
    let mut names = builds.filter_map(|it| it.ok()?.file_name().into_string().ok());
    names.find_map(|name| Some(name.strip_suffix(&hash)?.strip_suffix('-')?.to_string()))
}

/// Reads the name of a package from its manifest.
fn package_name(folder: &Path) -> Option<String> {
    let manifest = std::fs::read_to_string(folder.join("Cargo.toml")).ok()?;
    name_in(&manifest)
}

fn name_in(manifest: &str) -> Option<String> {
    let mut is_of_package = false;
    for line in manifest.lines().map(str::trim) {
        match line.split_once('=') {
            _ if line.starts_with('[') => is_of_package = line == "[package]",
            Some((key, value)) if is_of_package && key.trim() == "name" => {
                let mut parts = value.split(['"', '\'']);
                return parts.nth(1).map(str::to_string);
            }
            _ => {}
        }
    }
    None
}

#[cfg(test)]
mod tests {
    use super::*;

    #[test]
    fn a_manifest_has_the_name_of_its_package() {
        let manifest = "[lib]\nname = \"other\"\n\n[package]\nversion = \"1\"\nname = \"my-shop\" # It sells.\n\n[[bin]]\nname = \"x\"\n";
        assert_eq!(name_in(manifest), Some("my-shop".to_string()));
        assert_eq!(name_in("[workspace]\nmembers = []\n"), None);
        assert_eq!(name_in("[package]\n[lib]\nname = \"other\"\n"), None);
    }

    #[test]
    #[cfg_attr(target_family = "wasm", ignore = "WebAssembly names no program")]
    fn the_folder_of_a_build_names_its_package() {
        let path = &Program::this().path;
        if target::hash_of(path).is_some() {
            assert_eq!(package_by_build(path).as_deref(), Some("yovanelum"));
        }
        assert_eq!(package_by_build(Path::new("/x/deps/bus")), None);
    }

    #[test]
    #[cfg_attr(target_family = "wasm", ignore = "WebAssembly names no program")]
    fn this_program_is_the_test_of_its_library() {
        let program = Program::this();
        assert_eq!(program.package.as_deref(), Some("yovanelum"));
        assert_eq!(program.target.kind, TargetKind::Lib);
        assert_eq!(program.target.folder_name(), "lib");
        let root = program.root_of(&[Path::new(file!())]).unwrap();
        assert!(root.join(file!()).is_file());
        assert!(program.path.starts_with(&program.target_folder));
    }
}
