//! A workspace outside of this package, which cargo builds and tests as it does for users.

use std::path::{Path, PathBuf};
use std::process::{Command, Output};
use std::sync::{Mutex, MutexGuard, PoisonError};
use std::{env, fs};

/// A workspace whose folder stays, so that cargo builds again only what has changed.
pub struct Workspace(pub PathBuf);

impl Workspace {
    /// Writes the files, each with its path in the workspace. A line of a manifest that is `CRATE`
    /// becomes the dependency on this crate.
    pub fn new(name: &str, texts: &[(&str, &str)]) -> Workspace {
        let workspace = Workspace(Path::new(env!("CARGO_TARGET_TMPDIR")).join(name));
        let this = format!("yovanelum = {{ path = {:?} }}", env!("CARGO_MANIFEST_DIR"));
        for (path, text) in texts {
            let path = workspace.0.join(path);
            let text = text.replace("CRATE", &this);
            // Cargo looks at the times of files.
            if fs::read_to_string(&path).ok().as_deref() != Some(&text) {
                fs::create_dir_all(path.parent().unwrap()).unwrap();
                fs::write(&path, text).unwrap();
            }
        }
        workspace
    }

    /// A workspace with the package `shop`, which has one file of tests, and this crate among its
    /// dependencies.
    pub fn of_shop(name: &str, file: &str, tests: &str) -> Workspace {
        let manifest = "[package]\nname = \"shop\"\nversion = \"0.0.0\"\nedition = \"2021\"\n\n[dependencies]\nCRATE\n\n[profile.dev]\ndebug = false\nincremental = false\n\n[workspace]\n";
        let tests = (format!("tests/{file}.rs"), tests);
        let files = [
            ("Cargo.toml", manifest),
            ("src/lib.rs", ""),
            (&tests.0, tests.1),
        ];
        Workspace::new(name, &files)
    }

    /// A command of the shell in the workspace, in which nothing is set that the run of this test
    /// has set.
    pub fn shell(&self, line: &str) -> Command {
        let mut shell = Command::new("sh");
        shell.args(["-c", line]).current_dir(&self.0);
        for (name, _) in env::vars_os() {
            let text = name.to_string_lossy();
            let is_set_here = text.starts_with("CARGO_") && text != "CARGO_HOME";
            if is_set_here || text.starts_with("YOVANELUM_") || text.starts_with("RUSTFLAGS") {
                shell.env_remove(&name);
            }
        }
        shell.env("CARGO_NET_OFFLINE", "true");
        shell
    }
}

/// Has those tests run in turn that write the same files.
pub fn in_turn() -> MutexGuard<'static, ()> {
    static TURN: Mutex<()> = Mutex::new(());
    TURN.lock().unwrap_or_else(PoisonError::into_inner)
}

/// Returns all that a command has printed.
pub fn printed(output: &Output) -> String {
    let text = |bytes| String::from_utf8_lossy(bytes).into_owned();
    text(&output.stdout) + &text(&output.stderr)
}
