//! For tests that run their own program again for a part of the test, as a process whose output can
//! be read.

use std::path::{Path, PathBuf};
use std::process::Command;
use std::{env, fs};

/// The variable that is set in the process that runs a test's part.
const PART: &str = "YOVANELUM_TEST_PART";

pub fn is_part() -> bool {
    env::var_os(PART).is_some()
}

/// A folder that is deleted when this is dropped.
pub struct Folder(pub PathBuf);

impl Folder {
    pub fn new(name: &str) -> Folder {
        let folder = super::temporary::path(name);
        fs::create_dir_all(&folder).unwrap();
        let whole = fs::canonicalize(folder).unwrap();
        // Windows puts `\\?\` before such a path, which nobody else writes.
        let plain = whole.to_str().and_then(|path| path.strip_prefix(r"\\?\"));
        Folder(plain.map_or(whole.clone(), PathBuf::from))
    }
}

impl Drop for Folder {
    fn drop(&mut self) {
        let _ = fs::remove_dir_all(&self.0);
    }
}

/// The name of this test program.
const PROGRAM: &str = env!("CARGO_CRATE_NAME");

/// Returns this program as one that cargo has built in the folder `built` of this one.
fn built(folder: &Path) -> PathBuf {
    let this = env::current_exe().unwrap();
    let deps = folder.join("built/debug/deps");
    let program = deps.join(this.file_name().unwrap());
    if !program.exists() {
        fs::create_dir_all(&deps).unwrap();
        fs::write(folder.join("built/CACHEDIR.TAG"), "").unwrap();
        fs::hard_link(&this, &program)
            .or_else(|_| fs::copy(&this, &program).map(drop))
            .unwrap();
    }
    program
}

/// Returns the folder with the files of tests of this program, where it was built in the folder
/// `built` of this one.
pub fn files(folder: &Path) -> PathBuf {
    let package = folder.join("built").join("yovanelum").join("yovanelum");
    package.join(format!("test-{PROGRAM}"))
}

/// Returns a file's address, as a browser takes it. Windows has a letter for the drive and
/// backslashes in the path.
pub fn address(path: &Path) -> String {
    let path = path.display().to_string();
    if cfg!(windows) {
        format!("file:///{}", path.replace('\\', "/"))
    } else {
        format!("file://{path}")
    }
}

/// Returns a path as a word of a shell, which takes a backslash as it is between quotes alone.
pub fn quoted(path: &Path) -> String {
    let quote = if cfg!(windows) { "'" } else { "" };
    format!("{quote}{}{quote}", path.display())
}

/// Returns the line by which a test of this program is replayed from this journal.
pub fn replay_line(journal: &Path, test: &str) -> String {
    format!(
        "replay: YOVANELUM_REPLAY={} cargo test -p yovanelum --test {PROGRAM} -- {test} --exact",
        quoted(journal)
    )
}

/// Returns a line without the options and the variables that cargo was given for this build.
pub fn without_options(line: &str) -> String {
    let parts = line.split_once(" cargo test ").and_then(|(before, rest)| {
        let (journal, _) = before
            .strip_prefix("replay: ")?
            .split_once(' ')
            .unwrap_or((&before[8..], ""));
        let (_, rest) = format!(" {rest}")
            .split_once(" -p ")
            .map(|(a, b)| (a.to_string(), b.to_string()))?;
        Some(format!("replay: {journal} cargo test -p {rest}"))
    });
    parts.unwrap_or_else(|| line.to_string())
}

/// The command that runs the part of this test in the folder.
pub fn started(test: &str, folder: &Path) -> Command {
    let mut part = Command::new(built(folder));
    part.args(["--exact", test])
        .current_dir(folder)
        .env(PART, "1")
        .env_remove("YOVANELUM_KEEP");
    part
}

/// Runs the part of this test in the folder. Returns whether it succeeds, and what it writes to
/// standard error.
pub fn play(test: &str, folder: &Path, keep: Option<&str>) -> (bool, String) {
    let mut part = started(test, folder);
    part.arg("--nocapture")
        .envs(keep.map(|keep| ("YOVANELUM_KEEP", keep)));
    let ran = part.output().unwrap();
    (ran.status.success(), String::from_utf8(ran.stderr).unwrap())
}

/// Whether a line on standard error is one of this crate.
fn is_ours(line: &str) -> bool {
    let starts = [
        "yovanelum: ",
        "failed: ",
        "error: ",
        "warning: ",
        "note: call ",
        "note: the panic, ",
        "note: the error, ",
        "  --> ",
        "  call ",
        "  the end ",
        "  the panic ",
        "  the error ",
        "  lost: ",
        "  not that far: ",
        "  senders: ",
        "  a panic ",
        "  the start ",
        "and ",
        "still waiting: ",
        "look: ",
        "replay: ",
    ];
    starts.iter().any(|start| line.starts_with(start))
}

/// Returns the lines of this crate from what a program wrote to standard error.
pub fn our_lines(said: &str) -> Vec<String> {
    let ours = said.lines().filter(|line| is_ours(line));
    ours.map(without_options).collect()
}

/// Returns the lines of a failed assertion and of this crate from what a program wrote to standard
/// error.
pub fn lines_of_failure(said: &str) -> String {
    let lines = said.lines().filter(|line| {
        let starts = ["assertion ", "  left: ", " right: "];
        starts.iter().any(|start| line.starts_with(start)) || is_ours(line)
    });
    lines
        .map(|line| format!("{}\n", without_options(line)))
        .collect()
}

/// Returns the part of a text between two others.
pub fn between<'a>(text: &'a str, start: &str, end: &str) -> &'a str {
    let (_, rest) = text.split_once(start).unwrap();
    rest.split_once(end).unwrap().0
}

/// Returns the number of the line after the first one that has this text.
pub fn line_after(source: &str, text: &str) -> u32 {
    let mut numbered = (2..).zip(source.lines());
    numbered.find(|(_, line)| line.contains(text)).unwrap().0
}

/// Returns a text in which places in one file are those in another, into which its lines from
/// `from` on were copied to `to`, four columns to the right.
pub fn relocated(text: &str, (file, from): (&str, u32), (copy, to): (&str, u32)) -> String {
    let mut parts = text.split(file);
    let mut out = parts.next().unwrap().to_string();
    for part in parts {
        let (line, rest) = number(&part[1..]);
        out += &format!("{copy}:{}", line - from + to);
        // A column comes next, or the text that the place stands before.
        let column = rest.strip_prefix(':');
        match column.filter(|rest| rest.starts_with(|c: char| c.is_ascii_digit())) {
            Some(column) => {
                let (column, rest) = number(column);
                out += &format!(":{}{rest}", column + 4);
            }
            None => out += rest,
        }
    }
    out
}

/// Returns the number that a text begins with, and the rest of the text.
fn number(text: &str) -> (u32, &str) {
    let end = text.find(|c: char| !c.is_ascii_digit()).unwrap();
    (text[..end].parse().unwrap(), &text[end..])
}
