//! The files of a failing test are whole: where processes write side by side, and where they can't
//! be written.

use crate::support::named::member;
use crate::support::rounds;
use crate::support::workspace::{Workspace, in_turn, printed};
use crate::{assert_brings_back, assert_whole, files, program, replay_lines, workspace};
use std::collections::BTreeMap;
use std::fs;
use std::io::{BufRead, BufReader, Read, Write};
use std::path::{Path, PathBuf};
use std::process::{Child, ChildStderr, Command, Stdio};
use std::thread;
use std::time::{Duration, SystemTime};

/// Returns the command that runs a failing test by its program.
fn command_of(program: &Path) -> Command {
    let line = format!(
        "exec '{}' --exact ann_is_first --nocapture",
        program.display()
    );
    let mut command = workspace().shell(&line);
    command.env("LATE", "Ann").stdout(Stdio::null());
    command
}

/// How much the time of a file may be behind the clock, for the crate.
const TICK: Duration = Duration::from_millis(10);

/// Waits until this file is too old to have been written since a process that begins now.
fn wait_until_written_before(file: &Path) {
    let written = fs::metadata(file).unwrap().modified().unwrap();
    while SystemTime::now() <= written + TICK {
        thread::yield_now();
    }
}

/// The journals of the test `race` in this folder.
fn journals_in(folder: &Path) -> Vec<PathBuf> {
    let files = fs::read_dir(folder).unwrap().map(|it| it.unwrap().path());
    let journals: Vec<_> = files
        .filter(|path| {
            let name = path.file_name().unwrap().to_str().unwrap();
            name.starts_with("race") && name.ends_with(".journal")
        })
        .collect();
    assert!(!journals.is_empty());
    journals
}

#[test]
fn the_files_of_processes_side_by_side_are_whole() {
    let _turn = in_turn();
    let _ = fs::remove_dir_all(files());
    let shop = program("my-shop", "my-bus");
    let depot = program("depot", "my-bus");
    let journals = [("my-shop", &shop), ("depot", &depot)]
        .map(|(package, _)| files().join(package).join("test-my-bus/race.journal"));
    for round in 0..rounds(10, 50) {
        if round > 0 {
            // Else it counts as one of a process that runs at the same time.
            wait_until_written_before(&journals[1]);
        }
        // Two of one test, and one of another package's of that name.
        let children = [&shop, &shop, &depot]
            .map(|program| command_of(program).stderr(Stdio::null()).spawn().unwrap());
        for mut child in children {
            assert_eq!(child.wait().unwrap().code(), Some(101));
        }
        for journal in journals_in(journals[0].parent().unwrap()) {
            assert_whole(&journal, "my-shop", "my-bus");
        }
        assert_whole(&journals[1], "depot", "my-bus");
    }
    let mut left: Vec<_> = fs::read_dir(journals[1].parent().unwrap())
        .unwrap()
        .collect();
    left.retain(|file| {
        !file
            .as_ref()
            .unwrap()
            .file_name()
            .to_str()
            .unwrap()
            .starts_with("race.")
    });
    assert!(left.is_empty(), "{left:?}");
}

/// Starts a failing test that waits for a line of input, and returns it once its recorder is there.
fn start_and_wait(program: &Path, house: &str) -> (Child, BufReader<ChildStderr>) {
    let mut command = command_of(program);
    let command = command.env("HOUSE", house).stdin(Stdio::piped());
    let mut child = command.stderr(Stdio::piped()).spawn().unwrap();
    let mut said = BufReader::new(child.stderr.take().unwrap());
    let mut line = String::new();
    said.read_line(&mut line).unwrap();
    assert_eq!(line, "open\n");
    (child, said)
}

/// Lets a failing test go on, and returns the journal that its line names.
fn journal_of((mut child, mut said): (Child, BufReader<ChildStderr>)) -> PathBuf {
    child.stdin.take().unwrap().write_all(b"\n").unwrap();
    let mut text = String::new();
    said.read_to_string(&mut text).unwrap();
    assert_eq!(child.wait().unwrap().code(), Some(101), "{text}");
    let lines = replay_lines(&text);
    let rest = lines[0].strip_prefix("YOVANELUM_REPLAY=").unwrap();
    PathBuf::from(rest.strip_prefix('\'').unwrap().split_once('\'').unwrap().0)
}

fn channel_of(journal: &Path) -> String {
    let names = fs::read_to_string(journal.with_extension("names")).unwrap();
    member(&names, "channels").to_string()
}

#[test]
fn processes_that_run_one_test_at_the_same_time_keep_their_files() {
    let _turn = in_turn();
    let _ = fs::remove_dir_all(files());
    let shop = program("my-shop", "my-bus");
    let file = |name: &str| files().join("my-shop/test-my-bus").join(name);
    let waiting = ["first", "second", "third"].map(|house| start_and_wait(&shop, house));
    let journals = waiting.map(journal_of);
    let wanted = ["race.journal", "race~2.journal", "race~3.journal"].map(file);
    assert_eq!(journals, wanted);
    for (journal, house) in journals.iter().zip(["first", "second", "third"]) {
        assert_whole(journal, "my-shop", "my-bus");
        assert_eq!(channel_of(journal), format!("{{\"0\": \"{house}\"}}"));
        let line = format!("YOVANELUM_REPLAY='{}' ", journal.display());
        assert_brings_back(
            &format!("{line}cargo test -p my-shop --test my-bus -- ann_is_first --exact"),
            journal.file_stem().unwrap().to_str().unwrap(),
        );
    }
    // A later process replaces what is older than itself.
    let an_hour_ago = SystemTime::now() - Duration::from_secs(3600);
    for journal in &journals {
        let file = fs::File::options().write(true).open(journal).unwrap();
        file.set_modified(an_hour_ago).unwrap();
    }
    assert_eq!(journal_of(start_and_wait(&shop, "later")), wanted[0]);
    assert_eq!(channel_of(&wanted[0]), "{\"0\": \"later\"}");
}

/// The files of a test, by their names.
fn bytes_in(folder: &Path) -> BTreeMap<String, Vec<u8>> {
    let files = fs::read_dir(folder).unwrap().map(Result::unwrap);
    files
        .map(|file| {
            (
                file.file_name().into_string().unwrap(),
                fs::read(file.path()).unwrap(),
            )
        })
        .collect()
}

/// A failing test that was built where its files can be taken away.
struct Apart {
    made: Workspace,
    program: PathBuf,
}

impl Apart {
    fn new(name: &str) -> Apart {
        let program = program("depot", "my-bus");
        let made = Workspace::new(name, &[("made/CACHEDIR.TAG", "")]);
        let deps = made.0.join("made/debug/deps");
        fs::create_dir_all(&deps).unwrap();
        let apart = deps.join(program.file_name().unwrap());
        fs::copy(&program, &apart).unwrap();
        Apart {
            made,
            program: apart,
        }
    }

    /// The words of the shell that run the test.
    fn words(&self) -> String {
        let program = self.program.display();
        format!("'{program}' --exact ann_is_first --nocapture")
    }

    /// Runs a line of the shell in which Ann is late, and returns what it prints.
    fn run(&self, line: &str) -> String {
        printed(&self.made.shell(line).env("LATE", "Ann").output().unwrap())
    }
}

/// Returns the one folder below this one that has files.
fn folder_with_files(above: &Path) -> PathBuf {
    let mut inner = fs::read_dir(above).unwrap().map(|it| it.unwrap().path());
    match inner.find(|path| path.is_dir()) {
        Some(folder) => folder_with_files(&folder),
        None => above.to_path_buf(),
    }
}

#[test]
fn a_file_that_cannot_be_written_whole_leaves_those_from_before() {
    let _turn = in_turn();
    let apart = Apart::new("limited");
    let run = |limit: &str| apart.run(&format!("trap '' XFSZ; {limit} exec {}", apart.words()));
    run("");
    let folder = folder_with_files(&apart.made.0.join("made/yovanelum"));
    let before = bytes_in(&folder);
    let files = ["race.html", "race.journal", "race.names"];
    assert_eq!(before.keys().collect::<Vec<_>>(), files);
    // A limit is how many blocks of 512 bytes a file can have. The journal is the smallest, and
    // the page the largest.
    let [page, journal, names] = files.map(|file| before[file].len().div_ceil(512));
    assert!(journal < names && names < page);
    for limit in [0, journal, names, page - 1] {
        let said = run(&format!("ulimit -f {limit};"));
        let is_said = said.contains("race.journal isn't written: ");
        let is_led = said.contains("look: ") || said.contains("replay: ");
        assert!(is_said && !is_led, "{limit}: {said}");
        assert!(bytes_in(&folder) == before, "{limit}");
    }
    assert!(run(&format!("ulimit -f {};", page + 1)).contains("look: "));
}

/// Runs the test on a disk that has ever more free pages, and copies the files of each run.
const ON_A_SMALL_DISK: &str = "
set -e
rm -rf copies && mkdir -p copies made/yovanelum
mount -t tmpfs -o size=2m tmpfs made/yovanelum
TEST > copies/said-first 2>&1 || true
cp -r made/yovanelum copies/before
dd if=/dev/zero of=made/yovanelum/fill bs=4096 2>/dev/null || true
size=$(stat -c %s made/yovanelum/fill)
for free in 0 1 2 3 60; do
    truncate -s $((size - free * 4096)) made/yovanelum/fill
    TEST > copies/said-$free 2>&1 || true
    rm -rf copies/now && mkdir copies/now && cp -r made/yovanelum/* copies/now && rm copies/now/fill
    diff -r copies/before copies/now
    grep -q \"race.journal isn't written: \" copies/said-$free
done
rm made/yovanelum/fill
TEST 2>&1 | grep '^look: '
umount made/yovanelum
";

/// Whether this process may mount a disk of its own. Where it may not, the test above shows the
/// same by a limit on the size of files.
fn may_mount() -> bool {
    let mount = ["-rm", "mount", "-t", "tmpfs", "tmpfs", "/mnt"];
    let mounted = Command::new("unshare").args(mount).output();
    mounted.is_ok_and(|mounted| mounted.status.success())
}

#[test]
fn a_disk_that_is_full_leaves_the_files_from_before() {
    let _turn = in_turn();
    if !may_mount() {
        return;
    }
    let apart = Apart::new("small disk");
    fs::write(
        apart.made.0.join("fill"),
        ON_A_SMALL_DISK.replace("TEST", &apart.words()),
    )
    .unwrap();
    let said = apart.run("unshare -rm sh fill");
    assert!(said.starts_with("look: "), "{said}");
}
