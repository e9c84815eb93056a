//! What is launched: a journal, a test that is run first, or the newest journal of one.

use crate::arguments::Arguments;
use crate::inbox::Incoming;
use crate::journal::newest;
use crate::native::{self, Test};
use crate::package::{Selected, target_above};
use crate::patch::Patch;
use crate::{Answer, Refusal};
use serde_json::Value;
use std::env;
use std::io::{self, BufRead, BufReader, Read};
use std::path::{Path, PathBuf};
use std::process::{Child, Command, Stdio};
use std::sync::mpsc::Sender;
use std::thread;
use std::time::{Duration, SystemTime};

/// How much earlier than the clock a file's time may be.
const COARSENESS: Duration = Duration::from_millis(50);

/// By which variable cargo is told where to build.
const TARGET_VARIABLE: &str = "CARGO_TARGET_DIR";

/// The arguments of `launch` and `attach`.
pub(crate) struct Launch {
    pub(crate) journal: Option<PathBuf>,
    pub(crate) test: Option<String>,
    /// Whether the test is run first.
    pub(crate) runs: bool,
    pub(crate) root: Option<String>,
    pub(crate) replaced: Vec<(String, String)>,
    pub(crate) stop_at: StopAt,
    /// How the editor's own debugger is started: the type of a configuration, or members of one.
    pub(crate) native: Value,
    pub(crate) variables: Vec<(String, String)>,
    /// The folder in which cargo runs.
    pub(crate) folder: PathBuf,
    /// The package in tokio's place, where the build needs one that its manifests don't have.
    pub(crate) patch: Option<Patch>,
    cargo: Vec<String>,
}

/// Where the first stop is.
#[derive(Clone, Copy, Debug, PartialEq, Eq)]
pub(crate) enum StopAt {
    /// The place that the report says is worth looking at first.
    Cause,
    Start,
    End,
    Call(u32),
}

impl Launch {
    pub(crate) fn read(given: Arguments<'_>) -> Answer<Launch> {
        let root = given.text("root")?.map(str::to_string);
        let folder = given
            .text("cwd")?
            .map(str::to_string)
            .or_else(|| root.clone());
        let folder = absolute(Path::new(folder.as_deref().unwrap_or(".")));
        let journal = given.text("journal")?.or(given.text("program")?);
        let owned = |(key, value): (&str, &str)| (key.to_string(), value.to_string());
        Ok(Launch {
            journal: journal
                .filter(|it| !it.is_empty())
                .map(|path| folder.join(path)),
            test: given
                .text("test")?
                .filter(|it| !it.is_empty())
                .map(str::to_string),
            runs: given.flag("run")?.unwrap_or(true),
            root,
            replaced: given
                .object("sourceMap")?
                .text_members()
                .map(owned)
                .collect(),
            stop_at: stop_at(given)?,
            native: native::of_launch(given)?,
            folder,
            patch: None,
            cargo: given
                .texts("cargoArgs")?
                .into_iter()
                .map(str::to_string)
                .collect(),
            variables: given.object("env")?.text_members().map(owned).collect(),
        })
    }

    /// Returns the newest journal of the package, and of the test if one is named. Cargo is asked
    /// for its folder, if it may be run.
    pub(crate) fn newest(&self, runs_cargo: bool) -> Answer<PathBuf> {
        let target = self.target(runs_cargo);
        let package = Selected::by(&self.cargo, &self.folder).package();
        let found = newest(&target, package.as_deref(), self.test.as_deref(), None);
        found.ok_or_else(|| {
            let test = self.test.as_ref();
            let test = test.map_or(String::new(), |test| format!(" of a test `{test}`"));
            let package = package.map_or(String::new(), |name| format!(" of the package `{name}`"));
            let folder = target.join("yovanelum");
            let folder = folder.display();
            Refusal(format!(
                "there is no journal{test}{package} in {folder}: run the test first"
            ))
        })
    }

    /// Returns the newest journal of the test that isn't older than this.
    pub(crate) fn newest_since(&self, since: SystemTime) -> Option<PathBuf> {
        let since = since - COARSENESS;
        newest(&self.target(true), None, self.test.as_deref(), Some(since))
    }

    /// Returns the patch with which the newest run of the test was recorded, if there was one, and
    /// the build needs it.
    pub(crate) fn patch_of_last_run(&self) -> Option<Patch> {
        let journal = self.newest(true).ok()?;
        let names = std::fs::read_to_string(journal.with_extension("names")).ok()?;
        let is_patched = Test::of(&names).is_some_and(|test| test.is_patched);
        let patch = is_patched.then(|| self.patch_of_build())?;
        patch.ok().flatten()
    }

    /// Returns the patch of the build, unless its manifests or the words for cargo have it.
    pub(crate) fn patch_of_build(&self) -> Answer<Option<Patch>> {
        let metadata = self.metadata(&[]);
        metadata.map_or(Ok(None), |metadata| Patch::of_build(&metadata))
    }

    /// Returns what cargo tells of the packages, if it does.
    fn metadata(&self, words: &[&str]) -> Option<Value> {
        let mut command = self.command(&["metadata", "--format-version", "1"]);
        let selected = Selected::by(&self.cargo, &self.folder);
        let told = command.args(words).args(selected.words()).output().ok()?;
        serde_json::from_slice(&told.stdout).ok()
    }

    /// The folder that cargo builds in.
    fn target(&self, runs_cargo: bool) -> PathBuf {
        if let Some(folder) = Selected::by(&self.cargo, &self.folder).target() {
            return folder;
        }
        let told = runs_cargo.then(|| self.metadata(&["--no-deps"])).flatten();
        let told = told
            .as_ref()
            .and_then(|told| told.get("target_directory")?.as_str());
        told.map_or_else(|| self.target_without_cargo(), PathBuf::from)
    }

    /// The folder that cargo builds in, where it can't be asked: an editor may not know where cargo
    /// is, and a client of a port has none run.
    fn target_without_cargo(&self) -> PathBuf {
        let mut named = self
            .variables
            .iter()
            .filter(|(key, _)| key == TARGET_VARIABLE);
        let named = named.next_back().map(|(_, value)| value.clone());
        let named = named.or_else(|| env::var(TARGET_VARIABLE).ok());
        match named.filter(|it| !it.is_empty()) {
            Some(named) => self.folder.join(named),
            None => target_above(&self.folder),
        }
    }

    /// The words for cargo, with the patch.
    fn words(&self) -> impl Iterator<Item = &str> {
        let patch = self.patch.iter().flat_map(Patch::words);
        self.cargo.iter().map(String::as_str).chain(patch)
    }

    fn command(&self, words: &[&str]) -> Command {
        let mut command = Command::new("cargo");
        command
            .args(words)
            .current_dir(&self.folder)
            .stdin(Stdio::null());
        command.envs(self.variables.iter().map(|(key, value)| (key, value)));
        command
    }

    /// Starts the test as a run of this number. A test that passes leaves its journal, too.
    pub(crate) fn start(&self, test: &str, run: u64, lines: &Sender<Incoming>) -> Answer<Running> {
        let mut command = self.command(&["test"]);
        command.args(self.words()).args([test, "--", "--nocapture"]);
        let mut child = self.spawn(command.env("YOVANELUM_KEEP", "1"))?;
        for stream in [readable(child.stdout.take()), readable(child.stderr.take())] {
            let lines = lines.clone();
            thread::spawn(move || {
                let _ = pass_lines(stream, Some(run), &lines);
                let _ = lines.send(Incoming::Ended(run));
            });
        }
        Ok(Running::of(child))
    }

    /// Starts a build of the tests of a package. Its messages are sent when it ends.
    pub(crate) fn build(&self, package: &str, sender: &Sender<Incoming>) -> Answer<Running> {
        let mut command = self.command(&["test", "--no-run"]);
        command.arg("--message-format=json-render-diagnostics");
        let is_said = |word: &String| word.starts_with("-p") || word.starts_with("--package");
        if !package.is_empty() && !self.cargo.iter().any(is_said) {
            command.arg(format!("--package={package}"));
        }
        let mut child = self.spawn(command.args(self.words()))?;
        let (lines, messages) = (sender.clone(), sender.clone());
        let said = readable(child.stderr.take());
        thread::spawn(move || pass_lines(said, None, &lines));
        let mut built = readable(child.stdout.take());
        thread::spawn(move || {
            let mut bytes = vec![];
            let _ = built.read_to_end(&mut bytes);
            let _ = messages.send(Incoming::Built(bytes));
        });
        Ok(Running::of(child))
    }

    fn spawn(&self, command: &mut Command) -> Answer<Child> {
        command.stdout(Stdio::piped()).stderr(Stdio::piped());
        in_own_group(command);
        command.spawn().map_err(|error| {
            Refusal(format!(
                "cargo can't be run in {}: {error}",
                self.folder.display()
            ))
        })
    }
}

fn stop_at(given: Arguments<'_>) -> Answer<StopAt> {
    if let Ok(Some(call)) = given.number("stopAt") {
        return Ok(StopAt::Call(u32::try_from(call).unwrap_or(u32::MAX)));
    }
    match given.text("stopAt")? {
        None | Some("cause") => Ok(StopAt::Cause),
        Some("start") => Ok(StopAt::Start),
        Some("end") => Ok(StopAt::End),
        Some(_) => Err(Refusal::new(
            "`stopAt` is `cause`, `start`, `end` or the number of a call",
        )),
    }
}

/// A test that runs, or is built.
pub(crate) struct Running {
    child: Child,
    pub(crate) since: SystemTime,
}

impl Running {
    /// How many streams pass on their lines.
    pub(crate) const STREAMS: usize = 2;

    fn of(child: Child) -> Running {
        Running {
            child,
            since: SystemTime::now(),
        }
    }

    /// Waits for the end, once its streams have ended.
    pub(crate) fn wait(&mut self) {
        let _ = self.child.wait();
    }

    /// Ends the test with the programs that it started.
    pub(crate) fn end(&mut self) {
        end_group(self.child.id());
        let _ = self.child.kill();
        let _ = self.child.wait();
    }
}

/// Returns the stream of a program, which is there.
fn readable(stream: Option<impl Read + Send + 'static>) -> Box<dyn Read + Send> {
    match stream {
        Some(stream) => Box::new(stream),
        None => Box::new(io::empty()),
    }
}

fn pass_lines(stream: impl Read, run: Option<u64>, lines: &Sender<Incoming>) -> io::Result<()> {
    let mut stream = BufReader::new(stream);
    let mut line = vec![];
    while stream.read_until(b'\n', &mut line)? > 0 {
        let text = String::from_utf8_lossy(&line).into_owned();
        line.clear();
        if lines.send(Incoming::Line(run, text)).is_err() {
            break;
        }
    }
    Ok(())
}

#[cfg(unix)]
fn in_own_group(command: &mut Command) {
    std::os::unix::process::CommandExt::process_group(command, 0);
}

#[cfg(unix)]
fn end_group(id: u32) {
    let _ = Command::new("kill")
        .args(["-KILL", "--", &format!("-{id}")])
        .stderr(Stdio::null())
        .status();
}

#[cfg(not(unix))]
fn in_own_group(_command: &mut Command) {}

#[cfg(not(unix))]
fn end_group(id: u32) {
    let mut command = Command::new("taskkill");
    let command = command.args(["/T", "/F", "/PID", &id.to_string()]);
    let _ = command.stdout(Stdio::null()).stderr(Stdio::null()).status();
}

/// Returns the path from the root of the file system on.
pub(crate) fn absolute(path: &Path) -> PathBuf {
    std::path::absolute(path).unwrap_or_else(|_| path.to_path_buf())
}
