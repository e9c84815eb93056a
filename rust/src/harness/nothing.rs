//! What is said of a recorder under which no channel was created: nothing was recorded, and the
//! likely cause.

use super::saved::ITS_CHANNELS;
use super::stacks;
use super::stand_in;
use super::test_run::{self, TestRun};
use crate::channels::actors;
use crate::channels::recorder::{OfNone, is_any_made, of_none};
use crate::harness::program::is_patched;
use crate::harness::replay_line::is_name_of_test;
use std::backtrace::Backtrace;
use std::env;
use std::panic::Location;

/// Returns why nothing may have been recorded in this process, in one sentence.
pub(super) fn likely_cause() -> String {
    let first = of_none().iter().find_map(|it| it.made_at);
    first.map_or_else(by_build, |at| of_no_recorder("", at))
}

/// Says that a channel which was created here belongs to no recorder.
fn of_no_recorder(when: &str, at: &Location<'_>) -> String {
    format!(
        "a channel was created at {}:{}{when}, and belongs to no recorder: one records {ITS_CHANNELS}",
        at.file(),
        at.line()
    )
}

/// Returns the cause where no channel is known that the test may have created.
fn by_build() -> String {
    if is_any_made() || is_patched() {
        return "the test created no channel that belongs to its recorder".to_string();
    }
    let offer = stand_in::offer();
    let offer = offer.unwrap_or_else(|error| format!("A patch isn't written: {error}"));
    format!("are tokio's channels swapped? {offer}")
}

impl TestRun {
    /// Returns the line that says so of this test, which ends here. That may read the symbols of
    /// the program.
    pub(super) fn nothing_line(&self) -> String {
        format!("{} recorded nothing: {}", self.name, self.why_nothing())
    }

    fn why_nothing(&self) -> String {
        if let Some(other) = self.recorder_of_channel() {
            return format!(
                "the channel that it used belongs to the recorder of {other}, which created it: a static is created once in a process"
            );
        }
        if self.is_dropped_where_made() {
            let (file, line) = (self.made_at.file(), self.made_at.line());
            return format!(
                "its recorder was dropped where it was created, at {file}:{line}: `let _ = ..` drops it at once, and `let _recorder = ..` keeps it"
            );
        }
        let of_none = of_none();
        let here = of_none.iter().filter(|it| self.may_have_made(it));
        let (before, since): (Vec<_>, Vec<_>) = here.partition(|it| it.moment < self.moment);
        let first = |of_none: &[&OfNone]| of_none.iter().find_map(|it| it.made_at);
        match (first(&since), first(&before)) {
            (Some(at), _) => of_no_recorder("", at),
            (None, Some(at)) => of_no_recorder(", before the recorder", at),
            (None, None) => by_build(),
        }
    }

    /// Returns the test of another recorder, if the last call here was on a channel of that.
    fn recorder_of_channel(&self) -> Option<String> {
        let last = actors::last_recorder()?;
        test_run::name_of(last).filter(|_| last != self.recorder_id)
    }

    /// Whether the recorder is dropped on the line on which it was created. The symbols of the
    /// program say so. They aren't read where a task was seen meanwhile, so that a test whose tasks
    /// pass doesn't wait for that.
    fn is_dropped_where_made(&self) -> bool {
        let recorder = self.recorder.upgrade();
        if recorder.is_some_and(|recorder| recorder.has_seen_tasks()) {
            return false;
        }
        let here = env::current_dir().unwrap_or_default();
        let frame = stacks::first_own(&Backtrace::force_capture(), &here);
        let dropped = frame.and_then(|frame| frame.location);
        dropped.is_some_and(|at| {
            at.line == self.made_at.line() && self.made_at.file().ends_with(&at.file)
        })
    }

    /// Whether a channel without a recorder may be one of this test: it was created on its thread,
    /// or since the recorder was there, on a thread that isn't another test's while no other test
    /// had a recorder.
    fn may_have_made(&self, channel: &OfNone) -> bool {
        let name = channel.thread.as_deref().unwrap_or_default();
        let is_here = name == self.thread && is_name_of_test(name);
        let is_meanwhile = channel.moment > self.moment && channel.is_of_one;
        is_here || is_meanwhile && !is_name_of_test(name)
    }
}

#[cfg(test)]
mod tests {
    use crate::channels::actors::named;
    use crate::channels::recorder::Recorder;
    use crate::{block_on, broadcast};

    #[test]
    fn a_test_whose_task_was_polled_is_known() {
        let recorder = Recorder::for_test("a_test_whose_task_was_polled_is_known");
        let shared = Recorder::current().unwrap().0;
        let (orders, _audit) = broadcast::channel(1);
        orders.send(71).unwrap();
        assert!(!shared.has_seen_tasks());
        block_on(named("clerk", async {}));
        assert!(shared.has_seen_tasks());
        drop(recorder);
    }
}
