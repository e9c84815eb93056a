//! Calls of tokio's own channels and locks, which are steps of a run that is explored where that is
//! asked for.

use crate::channels::turns::explored;

/// Stands before a call of tokio's own, as `Mutex::lock`, where a run is explored that has such
/// steps.
///
/// No part of what this crate promises: it is for the package that stands for tokio.
#[doc(hidden)]
pub fn pass_point(called: &'static str) {
    if let Some(run) = explored() {
        run.tasks.stand_at(called);
    }
}
