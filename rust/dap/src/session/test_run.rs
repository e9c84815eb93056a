//! A launch that runs a test: its output is printed, and requests meanwhile wait or end it.

use super::{NOT_ALLOWED, Session};
use crate::arguments::Arguments;
use crate::inbox::Incoming;
use crate::launch::{Launch, Running};
use crate::patch::Patch;
use crate::{Answer, Refusal};
use serde_json::{Value, json};
use std::io::Write;
use std::path::PathBuf;

/// The number by which a client knows the progress of a test.
const PROGRESS: &str = "test";

/// Why a test that the client ended has no journal.
const ENDED: &str = "the test was ended";

/// What a message that comes while a test runs has to do with the test.
enum Meanwhile {
    /// It waits for the end.
    Waits,
    /// It was answered.
    Answered,
    /// It ends the test, for this reason, and is answered after that.
    Ends(Refusal),
}

impl<W: Write> Session<W> {
    /// Returns the path of the journal that is launched.
    pub(super) fn journal_of(&mut self, launch: &mut Launch) -> Answer<PathBuf> {
        match (&launch.journal, launch.test.clone()) {
            (Some(journal), _) => Ok(journal.clone()),
            (None, Some(test)) if launch.runs => {
                if !self.options.runs_tests {
                    return Err(Refusal::new(NOT_ALLOWED));
                }
                self.run_with_patch(launch, &test)
            }
            _ => launch.newest(self.options.runs_tests),
        }
    }

    /// Runs a test. One that recorded nothing says so where a patch of tokio is missing, and with
    /// which it would record: then it is run again with that.
    fn run_with_patch(&mut self, launch: &mut Launch, test: &str) -> Answer<PathBuf> {
        if launch.patch.is_none() {
            launch.patch = launch.patch_of_last_run();
        }
        let (journal, offered) = self.run_test(launch, test)?;
        let Some(patch) = offered.filter(|_| journal.is_none() && launch.patch.is_none()) else {
            return journal.ok_or_else(|| no_journal(test));
        };
        let line = format!(
            "`{test}` recorded nothing over tokio's own channels. It is run again with {patch}\n"
        );
        self.print("important", &line);
        launch.patch = Some(patch);
        let (journal, _) = self.run_test(launch, test)?;
        journal.ok_or_else(|| no_journal(test))
    }

    /// Runs a test, whose output is printed. A request to cancel, to terminate or to disconnect
    /// ends it. Returns its journal, if it wrote one, and the patch that it offers.
    fn run_test(
        &mut self,
        launch: &Launch,
        test: &str,
    ) -> Answer<(Option<PathBuf>, Option<Patch>)> {
        self.run += 1;
        let mut running = launch.start(test, self.run, &self.inbox.sender())?;
        if self.has_progress {
            let title = format!("cargo test {test}");
            self.event(
                "progressStart",
                json!({"progressId": PROGRESS, "title": title, "cancellable": true}),
            );
        }
        let followed = self.follow(&mut running);
        if self.has_progress {
            self.event("progressEnd", json!({"progressId": PROGRESS}));
        }
        let offered = followed?;
        running.wait();
        Ok((launch.newest_since(running.since), offered))
    }

    /// Prints the lines of a test until it ends, and returns the patch that one of them offers.
    fn follow(&mut self, running: &mut Running) -> Answer<Option<Patch>> {
        let (mut streams, mut offered) = (Running::STREAMS, None);
        while streams > 0 {
            match self.inbox.next_new() {
                Incoming::Line(run, line) => {
                    offered = Patch::offered_by(&line).or(offered);
                    let category = if run.is_some() { "stdout" } else { "console" };
                    self.print(category, &line);
                }
                // Another run was ended, whose streams may end later.
                Incoming::Ended(run) => streams -= usize::from(run == self.run),
                Incoming::Built(messages) => self.start_native(&messages),
                incoming => match self.take_meanwhile(&incoming) {
                    Meanwhile::Answered => {}
                    Meanwhile::Waits => self.inbox.put_back(incoming),
                    Meanwhile::Ends(why) => {
                        self.inbox.put_back(incoming);
                        running.end();
                        return Err(why);
                    }
                },
            }
            if self.is_over {
                running.end();
                return Err(Refusal::new(ENDED));
            }
        }
        Ok(offered)
    }

    /// Takes a message that comes while a test runs.
    fn take_meanwhile(&mut self, incoming: &Incoming) -> Meanwhile {
        let Incoming::Message(bytes) = incoming else {
            return Meanwhile::Ends(Refusal::new(ENDED));
        };
        let request = serde_json::from_slice::<Value>(bytes).unwrap_or(Value::Null);
        match request.get("command").and_then(Value::as_str) {
            Some("terminate" | "disconnect") => Meanwhile::Ends(Refusal::new(ENDED)),
            Some("cancel") => self.cancel_meanwhile(&request),
            _ => Meanwhile::Waits,
        }
    }

    /// Takes a request to cancel, which may be of the launch or of a request that waits for it.
    fn cancel_meanwhile(&mut self, request: &Value) -> Meanwhile {
        let given = request.get("arguments").unwrap_or(&Value::Null);
        let Ok(of) = Arguments::of(given).and_then(Cancelled::read) else {
            // It is refused in its turn.
            return Meanwhile::Waits;
        };
        if of.request == Some(self.answering) || of.is_of_progress(PROGRESS) {
            return Meanwhile::Ends(Refusal::cancelled());
        }
        // What came before the launch is answered.
        let waits = of.request.filter(|number| *number > self.answering);
        self.cancelled.extend(waits);
        self.respond(request, Ok(Value::Null));
        Meanwhile::Answered
    }
}

/// What a client cancels: a request, a progress, or whatever goes on.
pub(super) struct Cancelled<'a> {
    request: Option<u64>,
    progress: Option<&'a str>,
}

impl<'a> Cancelled<'a> {
    pub(super) fn read(given: Arguments<'a>) -> Answer<Cancelled<'a>> {
        Ok(Cancelled {
            request: given.number("requestId")?,
            progress: given.text("progressId")?,
        })
    }

    /// Whether it is of what this progress is of.
    pub(super) fn is_of_progress(&self, id: &str) -> bool {
        match self.progress {
            Some(progress) => progress == id,
            None => self.request.is_none(),
        }
    }
}

fn no_journal(test: &str) -> Refusal {
    Refusal(format!(
        "`cargo test {test}` wrote no journal of a test `{test}`: see its output, and whether the test has a `Recorder::for_test`"
    ))
}
