//! What is written and printed at the end of a failing test: the journal, the names, the page with
//! both inside, and the report.

use super::automatic;
use super::files::{self, file_name};
use super::reader::{self, NoReport};
use super::replay_line;
use super::replaying::REPLAYED;
use super::saved::{RunSoFar, Saved};
use super::test_run::TestRun;
use crate::channels::lock::{lock, try_lock_for};
use crate::channels::recorder::{PATIENCE, Shared};
use crate::channels::turns::explored;
use crate::schedule::explore;
use std::io::{self, IsTerminal};
use std::path::{Path, PathBuf};
use std::sync::Mutex;
use yovanelum_record::journal::said;
use yovanelum_record::look::{address, at_call, has_colours};
use yovanelum_record::question::ReportOptions;
use yovanelum_record::sidecar::Sidecar;

/// Locked while the files of a test are written. A watchdog may write those of a test that fails at
/// the same time.
pub(super) static WRITING: Mutex<()> = Mutex::new(());

impl TestRun {
    /// Writes the files of this test, and prints the report. What can't be written is said in one
    /// line. `call` is where to look, if that isn't where the report says.
    pub(super) fn report(&self, recorder: &Shared, has_failed: bool, call: Option<u64>) {
        let _writing = lock(&WRITING);
        let lines = self.lines_on(&recorder.run(), recorder, has_failed, call);
        // In one call, since other tests print too.
        eprint!("{lines}");
    }

    /// Says so if nothing was recorded in a test that passes. The harness shows it with
    /// `--nocapture`.
    pub(super) fn say_if_nothing(&self, recorder: &Shared) {
        if recorder.has_nothing() {
            // In one call, and so that the harness captures it.
            eprint!("{}", self.nothing_in_words(recorder));
        }
    }

    /// Writes the files of this test at once, since the process ends, and returns the report. What
    /// this thread has locked is left out.
    pub(super) fn write_before_process_ends(&self) -> Option<String> {
        let recorder = self.recorder.upgrade()?;
        let _writing = try_lock_for(&WRITING, PATIENCE);
        Some(match recorder.readable_run(PATIENCE) {
            Some(run) => self.lines_on(&run, &recorder, true, None),
            None => format!(
                "yovanelum: {} isn't written, since this thread has locked its recorder\n",
                self.name
            ),
        })
    }

    /// Says how the replay of this test went, if it is one.
    pub(super) fn end_replay_before_process_ends(&self) {
        if let Some(recorder) = self.recorder.upgrade() {
            recorder.end_replay(self, true);
        }
    }

    /// Writes the files of this test, and returns the report on it.
    fn lines_on(
        &self,
        run: &RunSoFar<'_>,
        recorder: &Shared,
        has_failed: bool,
        call: Option<u64>,
    ) -> String {
        if recorder.has_nothing() {
            return self.nothing_in_words(recorder);
        }
        let path = self.journal_path(recorder);
        let Saved {
            run,
            journal,
            mut names,
        } = match run.saved(Some(self)) {
            Ok(saved) => saved,
            Err(error) => return not_written(&path, &error),
        };
        names.matching.has_failed = has_failed;
        names.order.replay = recorder.left_replay(&run, &names);
        let options = options(&path, io::stderr().is_terminal());
        let report = match reader::report(&run, &journal, &names, options) {
            Ok(report) => report,
            Err(NoReport::Run(fault)) => {
                return format!("yovanelum: {}: {}\n", path.display(), said(fault));
            }
            Err(why) => return self.without_report(&path, (&journal, &names), &why),
        };
        let call = call.unwrap_or(report.call);
        let page = report.page.as_deref().map_err(String::as_str);
        let (look, more) = match write((&path, self.number), &journal, (&report.names, page), call)
        {
            Ok((path, look)) => {
                let lines = self.replay_line(&path, &names) + &compare_line(&path, recorder);
                (format!("{} {look}\n", report.look), lines)
            }
            Err(error) => (String::new(), not_written(&path, &error)),
        };
        format!("{}{look}{more}", report.text)
    }

    /// Writes the journal and the names of this test, and returns a line that says why there is no
    /// report.
    fn without_report(
        &self,
        path: &Path,
        (journal, names): (&str, &Sidecar),
        why: &NoReport,
    ) -> String {
        let names = names.to_json();
        let no_page = Err("no report");
        match write((path, self.number), journal, (&names, no_page), 0) {
            Ok((path, _)) => format!(
                "yovanelum: no report of {}, {why}: its run is in {}, which `cargo yovanelum why {}` reads\n",
                self.name,
                path.display(),
                self.name
            ),
            Err(error) => format!(
                "yovanelum: no report of {}, {why}\n{}",
                self.name,
                not_written(path, &error)
            ),
        }
    }

    /// Returns the line that says how to make the calls again. Nobody can make those of a lead.
    fn replay_line(&self, path: &Path, names: &Sidecar) -> String {
        if names.window.is_some() {
            return String::new();
        }
        self.line_of_replay(path)
    }

    /// Returns the line for the journal with this path. A run that followed a schedule has none of
    /// its own: the journal beside that has.
    pub(super) fn line_of_replay(&self, path: &Path) -> String {
        let followed = explore::followed().map(|schedule| schedule.with_extension("journal"));
        replay_line::of(followed.as_deref().unwrap_or(path), self)
    }

    /// Says that nothing was recorded, unless others do: the end of a replay, and the session of
    /// the runs that it explores.
    fn nothing_in_words(&self, recorder: &Shared) -> String {
        if self.is_automatic() || recorder.turns.is_some() || explored().is_some() {
            String::new()
        } else {
            format!("yovanelum: {}\n", self.nothing_line())
        }
    }

    /// Returns the file for the journal of this test, or of its replay, which doesn't replace the
    /// one that it reads.
    pub(super) fn journal_path(&self, recorder: &Shared) -> PathBuf {
        let folder = files::folder();
        let name = file_name(&self.name);
        let gate = recorder.gate();
        let of_gate = gate.as_ref().map(|gate| gate.path());
        let Some(read) = of_gate.or(explore::followed()) else {
            return folder.join(format!("{name}.journal"));
        };
        let path = folder.join(format!("{name}{REPLAYED}.journal"));
        if read.with_extension("journal").file_name() == path.file_name() {
            folder.join(format!("{name}{REPLAYED}{REPLAYED}.journal"))
        } else {
            path
        }
    }
}

/// Returns the line that says how to compare a run with the one whose calls it was to make again,
/// if it diverged from that.
fn compare_line(path: &Path, recorder: &Shared) -> String {
    match recorder.gate().filter(|gate| gate.has_diverged()) {
        Some(gate) => replay_line::comparing(path, gate.path()),
        None => String::new(),
    }
}

pub(super) fn not_written(path: &Path, error: &io::Error) -> String {
    format!("yovanelum: {} isn't written: {error}\n", path.display())
}

/// Returns what the report of a run with this journal has, where it is written to a terminal or
/// not.
pub(super) fn options(path: &Path, is_terminal: bool) -> ReportOptions {
    ReportOptions {
        file: file_name_of(path),
        has_colours: has_colours(is_terminal),
        sources_before: automatic::sources_before(),
    }
}

fn file_name_of(path: &Path) -> String {
    let name = path.file_name().unwrap_or_default();
    name.to_string_lossy().into_owned()
}

/// Writes the journal of the test with this number, and beside it the names and the page with both
/// inside. Returns the journal's path, which is another one beside this one where a process that
/// runs the same test, or another test of this name, has written this one, and where to look. If
/// one can't be written, all are as before.
pub(super) fn write(
    (path, test): (&Path, u64),
    journal: &str,
    (names, page): (&str, Result<&[u8], &str>),
    call: u64,
) -> io::Result<(PathBuf, String)> {
    let path = files::replace(
        path,
        test,
        &[
            ("journal", Some(journal.as_bytes())),
            ("names", Some(names.as_bytes())),
            ("html", page.ok()),
        ],
    )?;
    let look = match page {
        Ok(_) => address(&path.with_extension("html"), call),
        Err(error) => format!("{}, {} (no page: {error})", path.display(), at_call(call)),
    };
    Ok((path, look))
}
