//! A run of cargo's, with the package in tokio's place.

use super::lock::Lock;
use super::points::POINTS;
use super::stand_in::{Build, ShownValues};
use super::words::Words;
use super::workspace::{CommandFailed, Package, Workspace, cargo};
use super::{signals, stand_in};
use std::env;
use std::ffi::OsString;
use std::path::PathBuf;
use std::process::{Command, ExitStatus};
use yovanelum_record::question::READER;

/// The variable by which tests learn that this command runs them.
const COMMAND: &str = "YOVANELUM_COMMAND";

/// The option by which values of any type have texts.
pub const DEBUG_VALUES: &str = "--debug-values";

/// The variable by which a stable compiler takes what is unstable, in the crates that it names.
const UNSTABLE_IN: &str = "RUSTC_BOOTSTRAP";

/// A command of cargo's.
pub struct CommandRun<'a> {
    /// Its words before those of the user, such as `test`.
    pub verb: &'a [&'a str],
    /// Those of the user, with [`DEBUG_VALUES`] if that is among them.
    pub words: Words,
    /// What is set for it beside.
    pub variables: Vec<(&'a str, OsString)>,
    /// Whether standard output is for what this command prints. Then cargo's goes to standard
    /// error.
    pub is_aside: bool,
}

impl CommandRun<'_> {
    /// Runs the command, and returns the workspace and its status.
    ///
    /// # Errors
    ///
    /// Returns an error where there is no workspace, or something can't be written or started.
    pub fn start(&self) -> Result<(Workspace, u8), CommandFailed> {
        signals::keep();
        let mut words = self.words.clone();
        let mut values = ShownValues::Known;
        // A replay has those of its run too.
        while words.take_alone(DEBUG_VALUES) {
            values = ShownValues::Debug;
        }
        let workspace = Workspace::without_packages(&words)?;
        let path = words.value_of(&["--lockfile-path"]).map(PathBuf::from);
        let path = path.unwrap_or_else(|| workspace.root.join("Cargo.lock"));
        let folder = workspace.state();
        let not_put = |error| CommandFailed::new(format!("{}: {error}", path.display()));
        let mut lock = Lock::take(path.clone(), &folder).map_err(not_put)?;
        let workspace = Workspace::with_packages(&words)?;
        let config = match tokio_of(&workspace) {
            Ok(tokio) => {
                let has_points = self.has_points();
                let build = Build { values, has_points };
                let config = stand_in::write(&workspace, tokio, build)?;
                let source = tokio.source.as_deref().unwrap_or_default();
                lock.replace_tokio(&tokio.version, source)
                    .map_err(not_put)?;
                Some(config)
            }
            Err(None) => None,
            Err(Some(line)) => {
                eprintln!("yovanelum: {line}");
                None
            }
        };
        let status = self.cargo(&words, config, values);
        drop(lock);
        let status = status
            .map_err(|error| CommandFailed::new(format!("cargo can't be started: {error}")))?;
        Ok((workspace, code(status)))
    }

    /// Whether calls of tokio's own are to be steps of a run that is explored.
    fn has_points(&self) -> bool {
        let mut set = self.variables.iter();
        let set = set.find(|(name, _)| *name == POINTS);
        let set = set.map(|(_, value)| value.clone());
        set.or_else(|| env::var_os(POINTS))
            .is_some_and(|it| it == "all")
    }

    /// Runs the command, and returns its status.
    ///
    /// # Errors
    ///
    /// Returns an error as [`start`](CommandRun::start) does.
    pub fn status(&self) -> Result<u8, CommandFailed> {
        self.start().map(|(_, status)| status)
    }

    fn cargo(
        &self,
        words: &Words,
        config: Option<PathBuf>,
        values: ShownValues,
    ) -> std::io::Result<ExitStatus> {
        let mut command = Command::new(cargo());
        command.args(self.verb);
        if let Some(config) = config {
            command
                .arg("--config")
                .arg(config)
                .args(words.over_another_lock());
        } else {
            command.args(&words.before);
        }
        command.args(&words.behind).env(COMMAND, "1");
        // The tests start it to read their runs.
        if let Ok(this) = env::current_exe() {
            command.env(READER, this);
        }
        if values == ShownValues::Debug {
            let before = env::var(UNSTABLE_IN).unwrap_or_default();
            command.env(UNSTABLE_IN, unstable_in(&before));
        }
        for (name, value) in &self.variables {
            command.env(name, value);
        }
        if self.is_aside {
            command.stdout(std::io::stderr());
        }
        signals::end_with_this(&mut command);
        if signals::has_come() {
            return Err(std::io::Error::from(std::io::ErrorKind::Interrupted));
        }
        signals::wait(&mut command.spawn()?)
    }
}

/// Returns in which crates the compiler takes what is unstable: in this one too. `1` says in all.
fn unstable_in(before: &str) -> String {
    match before {
        "" => "yovanelum".to_string(),
        "1" => "1".to_string(),
        crates => format!("{crates},yovanelum"),
    }
}

/// Returns the status to end with after one of cargo's.
fn code(status: ExitStatus) -> u8 {
    #[cfg(unix)]
    if let Some(signal) = std::os::unix::process::ExitStatusExt::signal(&status) {
        return 128 + signal as u8;
    }
    status.code().map_or(101, |code| code as u8)
}

/// Returns the tokio of a workspace that a package can stand for, or else why there is none, unless
/// one already stands for it.
fn tokio_of(workspace: &Workspace) -> Result<&Package, Option<String>> {
    let all = || {
        workspace
            .packages
            .iter()
            .filter(|package| package.name == "tokio")
    };
    let is_of_registry = |package: &Package| {
        package
            .source
            .as_deref()
            .is_some_and(|source| source.starts_with("registry+") || source.starts_with("sparse+"))
    };
    let is_stand_in =
        |package: &Package| package.dependencies.iter().any(|name| name == "yovanelum");
    if all().any(is_stand_in) {
        return Err(None);
    }
    let found = all().find(|package| is_of_registry(package) && package.version.starts_with("1."));
    let others = all().filter(|other| found != Some(other)).map(|other| {
        let from = other
            .source
            .clone()
            .unwrap_or_else(|| other.folder.display().to_string());
        format!("tokio {} of {from}", other.version)
    });
    let others = others.collect::<Vec<_>>().join(" and ");
    match (found, others.is_empty()) {
        (Some(tokio), true) => Ok(tokio),
        (Some(tokio), false) => {
            eprintln!(
                "yovanelum: the channels of {others} aren't recorded, only those of tokio {}",
                tokio.version
            );
            Ok(tokio)
        }
        (None, true) => Err(Some(
            "no package here depends on tokio, so the tests run as they are".to_string(),
        )),
        (None, false) => Err(Some(format!(
            "the tests run as they are: their channels are those of {others}, and only tokio 1 of a registry can be recorded without an edit"
        ))),
    }
}

#[cfg(test)]
mod tests {
    use super::*;

    const REGISTRY: &str = "registry+https://github.com/rust-lang/crates.io-index";

    fn workspace(packages: &[(&str, Option<&str>, &str)]) -> Workspace {
        let packages = packages
            .iter()
            .map(|(version, source, dependency)| Package {
                name: "tokio".into(),
                version: version.to_string(),
                source: source.map(str::to_string),
                folder: "/r/tokio".into(),
                dependencies: vec![dependency.to_string()],
                features: vec![],
            });
        Workspace {
            root: "/s".into(),
            target: "/s/target".into(),
            packages: packages.collect(),
        }
    }

    #[test]
    fn the_tokio_of_a_registry_is_stood_for() {
        let one = workspace(&[
            ("0.2.25", Some(REGISTRY), "x"),
            ("1.24.2", Some(REGISTRY), "x"),
        ]);
        assert_eq!(tokio_of(&one).unwrap().version, "1.24.2");
    }

    #[test]
    fn what_is_unstable_is_taken_in_this_crate_too() {
        for (before, wanted) in [("", "yovanelum"), ("1", "1"), ("a,b", "a,b,yovanelum")] {
            assert_eq!(unstable_in(before), wanted);
        }
    }

    #[test]
    fn what_can_not_be_recorded_is_said() {
        let none = workspace(&[]);
        let said = |workspace: &Workspace| tokio_of(workspace).unwrap_err().unwrap_or_default();
        assert_eq!(
            said(&none),
            "no package here depends on tokio, so the tests run as they are"
        );
        let by_git = workspace(&[("1.24.2", Some("git+https://a.example#0a"), "x")]);
        assert!(
            said(&by_git).contains("those of tokio 1.24.2 of git+https://a.example#0a"),
            "{}",
            said(&by_git)
        );
        let old = workspace(&[("0.2.25", Some(REGISTRY), "x")]);
        assert!(said(&old).contains("tokio 0.2.25"));
        let patched = workspace(&[("1.24.2", None, "yovanelum")]);
        assert_eq!(tokio_of(&patched), Err(None));
    }
}
