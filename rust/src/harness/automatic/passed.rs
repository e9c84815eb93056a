//! The last passing run of a test that has failed, with which `cargo yovanelum diff` compares the
//! failing one.

use super::is_under_command;
use crate::channels::lock::lock;
use crate::channels::recorder::Shared;
use crate::channels::turns::explored;
use crate::harness::ending::{WRITING, not_written};
use crate::harness::files;
use crate::harness::saved::Saved;
use crate::harness::test_run::TestRun;
use std::path::{Path, PathBuf};
use std::{env, io};

/// What the name of the journal of a passing run has more.
pub(in crate::harness) const PASSED: &str = ".passed";

/// The variable by which the command has a passing run be kept, also of a test that has left no
/// report.
const KEEP_PASSED: &str = "YOVANELUM_KEEP_PASSED";

impl TestRun {
    /// Keeps the run of this test, which has passed, if a report of it is there. So a test that
    /// never fails writes nothing.
    pub(in crate::harness) fn keep_passing(&self, recorder: &Shared) {
        let is_own_order = recorder.gate().is_none() && explored().is_none();
        if !is_under_command() || !is_own_order || recorder.has_nothing() {
            return;
        }
        let failing = self.journal_path(recorder);
        if env::var_os(KEEP_PASSED).is_some() || failing.is_file() {
            let path = passed(&failing);
            if let Err(error) = self.write_passing(recorder, &path) {
                eprint!("{}", not_written(&path, &error));
            }
        }
    }

    fn write_passing(&self, recorder: &Shared, path: &Path) -> io::Result<()> {
        let _writing = lock(&WRITING);
        let Saved { journal, names, .. } = recorder.run().saved(Some(self))?;
        let names = names.to_json();
        let files: [(_, Option<&[u8]>); 2] = [
            ("journal", Some(journal.as_bytes())),
            ("names", Some(names.as_bytes())),
        ];
        files::replace(path, self.number, &files).map(drop)
    }
}

/// Returns the journal of the last passing run of the test whose failing one has this journal.
fn passed(failing: &Path) -> PathBuf {
    let mut name = failing.file_stem().unwrap_or_default().to_os_string();
    name.push(PASSED);
    name.push(".journal");
    failing.with_file_name(name)
}
