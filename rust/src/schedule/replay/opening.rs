//! The gates that are open, and how one is opened.

use super::gate::Gate;
use super::helper;
use super::plan::Plan;
use super::stop;
use crate::channels::actors;
use crate::channels::lock::lock;
use crate::channels::recorder::Recorder;
use crate::channels::turns::{self, Polls, explored};
use std::path::Path;
use std::sync::{Arc, Mutex, Weak};
use std::task::Context;
use std::time::Duration;
use std::{env, fs, io};
use yovanelum_record::journal::{self, Run};
use yovanelum_record::listed::Keep;
use yovanelum_record::sidecar::Sidecar;

/// The variable that says how many milliseconds a thread waits without progress.
const PATIENCE: &str = "YOVANELUM_REPLAY_TIMEOUT_MS";

/// How long a thread waits without progress, unless the variable says otherwise.
const DEFAULT_PATIENCE: Duration = Duration::from_millis(2000);

static OPEN: Mutex<Vec<Weak<Gate>>> = Mutex::new(Vec::new());

/// Opens the gate of a journal, for the recorder with this number. The names are read from the file
/// beside the journal, if there is one.
///
/// # Errors
///
/// Returns an error if a file can't be read, or isn't what it is to be. It is one of invalid input
/// if a variable isn't.
pub(crate) fn open(path: &Path, recorder: u64) -> io::Result<Arc<Gate>> {
    let patience = patience(env::var(PATIENCE).ok())?;
    let text = fs::read(path).map_err(|error| of_file(path, &error))?;
    let run = Run::read(&text).map_err(|fault| of_file(path, &journal::said(fault)))?;
    let names = Sidecar::beside(path, &text)
        .map_err(|fault| of_file(&path.with_extension("names"), &fault))?;
    let names = names.map(|(names, _)| names).unwrap_or_default();
    if names.window.is_some() {
        let fault = "it has the last calls of a run alone, which can't be replayed";
        return Err(of_file(path, &fault));
    }
    let plan = Plan::new(&run, names);
    let stop_at = stop::index(env::var(stop::STOP).ok(), plan.steps.len())?;
    let gate = Arc::new(Gate::new(path, recorder, plan, patience).stopping_at(stop_at));
    helper::start(&gate)?;
    let mut open = lock(&OPEN);
    open.keep(|gate| gate.strong_count() > 0);
    open.push(Arc::downgrade(&gate));
    hold_polls();
    Ok(gate)
}

fn of_file(path: &Path, fault: &dyn std::fmt::Display) -> io::Error {
    io::Error::other(format!("{}: {fault}", path.display()))
}

fn patience(text: Option<String>) -> io::Result<Duration> {
    let Some(text) = text else {
        return Ok(DEFAULT_PATIENCE);
    };
    let milliseconds = text.parse().map(Duration::from_millis);
    milliseconds.map_err(|_| {
        let fault = format!("{PATIENCE} is `{text}`, and no number of milliseconds");
        io::Error::new(io::ErrorKind::InvalidInput, fault)
    })
}

/// Lets futures ask at each poll whether it is held back, by an open gate or by the explorer of the
/// run.
pub(crate) fn hold_polls() {
    turns::ask_at_polls(&OpenGates);
}

/// The gates that are open, which hold polls back.
struct OpenGates;

impl Polls for OpenGates {
    fn hold(
        &self,
        name: &str,
        task: &mut Option<Arc<str>>,
        recorder: Option<u64>,
        context: &Context<'_>,
    ) -> bool {
        match explored() {
            Some(run) => run.tasks.hold_named(task, name, context),
            None => is_held_by_gate(name, recorder, context, true),
        }
    }

    fn hold_task(
        &self,
        name: Option<&Arc<str>>,
        recorder: Option<u64>,
        context: &Context<'_>,
    ) -> bool {
        let name = name.filter(|_| explored().is_none());
        name.is_some_and(|name| is_held_by_gate(name, recorder, context, true))
    }

    fn hold_thread(&self, context: &Context<'_>) -> bool {
        match explored() {
            Some(run) => run.tasks.hold_thread(context),
            None => actors::name_of_thread_alone()
                .is_some_and(|name| is_held_by_gate(&name, None, context, false)),
        }
    }
}

/// Whether the open gate holds a poll back. `is_task` says whether it is one of a task or a future
/// with a name, and not of what a thread blocks on, without which nobody else goes on.
fn is_held_by_gate(
    name: &str,
    recorder: Option<u64>,
    context: &Context<'_>,
    is_task: bool,
) -> bool {
    let recorder = recorder.or_else(|| Recorder::current().map(|current| current.0.id));
    let within = actors::name_of_future();
    let gate = gate_of(recorder);
    gate.is_some_and(|gate| {
        // One without a recorder may be of another test.
        let is_alone = is_task && within.is_none() && recorder.is_some();
        gate.holds(name, within.as_deref(), context)
            || is_alone && gate.holds_unknown(name, context)
    })
}

/// Returns the open gate of this recorder. If there is no recorder, that is the gate of a process
/// that has one.
fn gate_of(recorder: Option<u64>) -> Option<Arc<Gate>> {
    let open = lock(&OPEN);
    let gates = open.iter().filter_map(Weak::upgrade);
    let mut gates = gates.filter(|gate| recorder.is_some() || !gate.entrance.is_over());
    match recorder {
        Some(recorder) => gates.find(|gate| gate.recorder == recorder),
        None => gates.next().filter(|_| gates.next().is_none()),
    }
}

/// Returns the gate of this recorder, if it replays a journal: also when all calls pass.
pub(crate) fn gate_of_recorder(recorder: u64) -> Option<Arc<Gate>> {
    gate_of(Some(recorder))
}

#[cfg(test)]
mod tests {
    use super::*;

    #[test]
    fn the_patience_is_that_of_the_variable() {
        assert_eq!(patience(None).unwrap(), Duration::from_secs(2));
        assert_eq!(
            patience(Some("75".to_string())).unwrap(),
            Duration::from_millis(75)
        );
        let fault = patience(Some("2s".to_string())).unwrap_err();
        assert_eq!(
            fault.to_string(),
            "YOVANELUM_REPLAY_TIMEOUT_MS is `2s`, and no number of milliseconds"
        );
    }
}
