//! The workspace of the tests, as `cargo metadata` describes it.

use super::words::Words;
use std::env;
use std::ffi::OsString;
use std::path::PathBuf;
use std::process::{Command, Stdio};
use yovanelum::{Json, read_json};

/// A workspace.
pub struct Workspace {
    pub root: PathBuf,
    /// The folder `target`.
    pub target: PathBuf,
    /// The packages that its tests are built of, or its members alone.
    pub packages: Vec<Package>,
}

/// A package of a graph.
#[derive(Clone, Debug, PartialEq, Eq)]
pub struct Package {
    pub name: String,
    pub version: String,
    /// Where it is from, as `registry+ADDRESS` or `git+ADDRESS`. `None` for one by its path.
    pub source: Option<String>,
    pub folder: PathBuf,
    /// The names of what it depends on.
    pub dependencies: Vec<String>,
    pub features: Vec<String>,
}

/// Why a command ends before its work is done: a line that says so, if cargo has said nothing, and
/// the status.
pub struct CommandFailed {
    pub line: Option<String>,
    pub status: u8,
}

impl CommandFailed {
    /// A failure that cargo hasn't told of.
    pub fn new(line: impl Into<String>) -> CommandFailed {
        CommandFailed {
            line: Some(line.into()),
            status: 101,
        }
    }
}

/// Returns the program `cargo`: the one that runs this command.
pub fn cargo() -> OsString {
    env::var_os("CARGO").unwrap_or_else(|| "cargo".into())
}

impl Workspace {
    /// Asks cargo for the workspace that these words are about, with the packages that its tests
    /// are built of.
    ///
    /// # Errors
    ///
    /// Returns an error where cargo finds none. Cargo has then said why.
    pub fn with_packages(words: &Words) -> Result<Workspace, CommandFailed> {
        // Packages for other targets may not have been fetched.
        let target = words
            .value_of(&["--target"])
            .map(str::to_string)
            .or_else(host);
        let of_target = target.map(|target| format!("--filter-platform={target}"));
        Workspace::ask(words, &Vec::from_iter(of_target))
    }

    /// Asks cargo for the workspace alone.
    ///
    /// # Errors
    ///
    /// Returns an error where cargo finds none.
    pub fn without_packages(words: &Words) -> Result<Workspace, CommandFailed> {
        Workspace::ask(words, &["--no-deps".to_string()])
    }

    fn ask(words: &Words, more: &[String]) -> Result<Workspace, CommandFailed> {
        let mut command = Command::new(cargo());
        command
            .args(["metadata", "--format-version=1"])
            .args(words.of_metadata())
            .args(more);
        let asked = command.stderr(Stdio::inherit()).output();
        let said = asked
            .map_err(|error| CommandFailed::new(format!("cargo can't be started: {error}")))?;
        if !said.status.success() {
            let status = said.status.code().map_or(101, |code| code as u8);
            return Err(CommandFailed { line: None, status });
        }
        let said = String::from_utf8_lossy(&said.stdout);
        let said = read_json(&said).map_err(|fault| {
            CommandFailed::new(format!("`cargo metadata` wrote what isn't read: {fault}"))
        })?;
        let mut workspace = Workspace::read(&said)
            .ok_or_else(|| CommandFailed::new("`cargo metadata` names no workspace"))?;
        if let Some(target) = words.value_of(&["--target-dir"]) {
            workspace.target = std::path::absolute(target).unwrap_or_else(|_| target.into());
        }
        Ok(workspace)
    }

    fn read(said: &Json) -> Option<Workspace> {
        let path = |key| said.get(key)?.as_text().map(PathBuf::from);
        let packages = said.get("packages")?.items();
        Some(Workspace {
            root: path("workspace_root")?,
            target: path("target_directory")?,
            packages: packages.iter().filter_map(Package::read).collect(),
        })
    }

    /// Returns the folder of this crate's files in the build.
    pub fn own(&self) -> PathBuf {
        self.target.join("yovanelum")
    }

    /// Returns the folder for what is of this workspace alone, since several may share the folder
    /// of the build.
    pub fn state(&self) -> PathBuf {
        let root = self.root.to_string_lossy();
        // FNV-1a, which is the same in each version of this program.
        let step = |hash: u64, byte: u8| (hash ^ u64::from(byte)).wrapping_mul(0x100_0000_01b3);
        let hash = root.bytes().fold(0xcbf2_9ce4_8422_2325, step);
        self.own().join("stand-in").join(format!("of-{hash:016x}"))
    }
}

impl Package {
    fn read(package: &Json) -> Option<Package> {
        let text = |key| package.get(key)?.as_text().map(str::to_string);
        let manifest = PathBuf::from(text("manifest_path")?);
        let dependencies = package.get("dependencies")?.items().iter();
        let names = dependencies.filter_map(|it| it.get("name")?.as_text().map(str::to_string));
        let features = package.get("features")?.members().iter();
        Some(Package {
            name: text("name")?,
            version: text("version")?,
            source: text("source"),
            folder: manifest.parent()?.to_path_buf(),
            dependencies: names.collect(),
            features: features.map(|(name, _)| name.clone()).collect(),
        })
    }
}

/// Returns the target that rustc compiles for.
fn host() -> Option<String> {
    let rustc = env::var_os("RUSTC").unwrap_or_else(|| "rustc".into());
    let said = Command::new(rustc).arg("-vV").output().ok()?;
    let said = String::from_utf8(said.stdout).ok()?;
    let host = said.lines().find_map(|line| line.strip_prefix("host: "))?;
    Some(host.to_string())
}

#[cfg(test)]
mod tests {
    use super::*;

    #[test]
    fn two_workspaces_have_folders_of_their_own() {
        let of = |root: &str| Workspace {
            root: root.into(),
            target: "/target".into(),
            packages: vec![],
        };
        assert_ne!(of("/a").state(), of("/b").state());
        // The hash of this text in the definition of FNV:
        // http://www.isthe.com/chongo/tech/comp/fnv/.
        assert_eq!(
            of("a").state(),
            PathBuf::from("/target/yovanelum/stand-in/of-af63dc4c8601ec8c")
        );
    }

    #[test]
    fn packages_are_read_from_what_cargo_says() {
        let said = r#"{"packages": [{"name": "tokio", "version": "1.24.2", "source": "registry+https://a.example", "manifest_path": "/r/tokio/Cargo.toml",
            "dependencies": [{"name": "bytes"}], "features": {"rt": ["b"]}}, {"name": "shop", "version": "0.0.0", "source": null,
            "manifest_path": "/s/Cargo.toml",
            "dependencies": [], "features": {}}], "workspace_root": "/s", "target_directory": "/s/target"}"#;
        let read = Workspace::read(&read_json(said).unwrap()).unwrap();
        assert_eq!((read.root, read.target), ("/s".into(), "/s/target".into()));
        let tokio = Package {
            name: "tokio".into(),
            version: "1.24.2".into(),
            source: Some("registry+https://a.example".into()),
            folder: "/r/tokio".into(),
            dependencies: vec!["bytes".into()],
            features: vec!["rt".into()],
        };
        assert_eq!(read.packages[0], tokio);
        assert_eq!(read.packages[1].source, None);
    }
}
