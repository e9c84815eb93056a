//! Whether a run met the condition that a test is explored for, as the run says it.

use super::settings::RUNS;
use crate::channels::recorder::Shared;
use crate::channels::standard_error::say;
use crate::harness::reader;
use crate::schedule::explore::{condition, is_of_session};
use std::panic::{self, AssertUnwindSafe};
use std::path::{Path, PathBuf};
use std::{env, fs, io};
use yovanelum_record::conditions::NamedCondition;
use yovanelum_record::question::Meets;

/// The file to which a run of a session writes its answer.
pub(super) const ANSWER: &str = "YOVANELUM_EXPLORE_ANSWER";

/// Says whether the run of this recorder met the condition of the variable, up to this stamp.
/// Returns the call that met it first.
pub(crate) fn answer(recorder: &Shared, last: u64) -> Option<u64> {
    let condition = condition()?;
    // A panic in a drop while a panic unwinds would end the process.
    let found = panic::catch_unwind(AssertUnwindSafe(|| found(recorder, last, &condition)));
    let (answer, said) = match found {
        Ok(Ok(found)) => found,
        Ok(Err(error)) => return say_nothing(&condition, &error),
        Err(_) => return None,
    };
    let path = env::var_os(ANSWER).filter(|_| is_of_session());
    if let Some(path) = path.map(PathBuf::from) {
        if let Err(error) = fs::write(&path, answer.text()) {
            say(&format!("{} isn't written: {error}", path.display()));
        }
    }
    let is_session = env::var_os(RUNS).is_some();
    if matches!(answer, Meets::Met(_)) || !is_session {
        say(&said);
    }
    match answer {
        Meets::Met(place) => Some(place),
        _ => None,
    }
}

fn say_nothing(condition: &NamedCondition, error: &io::Error) -> Option<u64> {
    say(&format!(
        "whether `{condition}` was met isn't known: {error}"
    ));
    None
}

/// Asks the debugger of the run, and returns its answer, also in words.
fn found(recorder: &Shared, last: u64, asked: &NamedCondition) -> io::Result<(Meets, String)> {
    let (run, names) = recorder.run().with_names()?;
    reader::meets(run, names, (asked, last)).map_err(io::Error::other)
}

/// Reads the file that a run has written, which isn't there if it wasn't asked.
pub(super) fn of_file(path: &Path) -> Option<Meets> {
    Meets::of_text(&fs::read_to_string(path).ok()?)
}
