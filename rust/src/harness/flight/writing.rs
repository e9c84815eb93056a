//! What the thread of a dump does: it copies the channels' last calls, makes a journal of them, and
//! writes it.

use super::files;
use crate::channels::lock::lock;
use crate::channels::recorder::{DumpRequest, PATIENCE};
use crate::harness::program::Program;
use crate::harness::saved::{Copied, text_of};
use crate::harness::window_names::raise_ending;
use crate::harness::windows::Most;
use std::collections::TryReserveError;
use std::io;
use std::path::PathBuf;
use std::sync::Mutex;
use yovanelum_record::clock::{Moment, wall};
use yovanelum_record::listed::PushAll;
use yovanelum_record::sidecar::Sidecar;
use yovanelum_record::sorting::sort_by_key;

/// Held while a dump of this process is made and written, so that no two have their memory at once.
/// Their calls are copied before.
static TURN: Mutex<()> = Mutex::new(());

fn no_memory(_: TryReserveError) -> io::Error {
    io::Error::other("no memory for the names")
}

/// Writes a dump, and returns the path of its journal.
pub(super) fn write(request: &mut DumpRequest) -> io::Result<PathBuf> {
    let copied = copied(request)?;
    let _turn = lock(&TURN);
    let (journal, names) = made(request, copied)?;
    let mut json = String::new();
    // What the names have of a call is shorter than what the journal has.
    json.try_reserve(journal.len()).map_err(no_memory)?;
    names.push_json(&mut json);
    let path = request
        .folder
        .join(files::name(request.why.at, request.why.trigger));
    let path = files::write(&path, &journal, &json)?;
    files::keep(&path, request.keep, wall());
    Ok(path)
}

/// Copies the channels' last calls.
fn copied(request: &mut DumpRequest) -> io::Result<Copied> {
    let recorder = &request.recorder.0;
    // A thread that panics may have locked a channel, and may wait for this one.
    let run = match &request.panic {
        None => recorder.run(),
        Some(_) => recorder
            .readable_run(PATIENCE)
            .ok_or_else(|| io::Error::other("the panicking thread has locked its recorder"))?,
    };
    let own = request.own.take().and_then(|own| run.number_of(own));
    run.copied(own, request.last)
}

/// Returns the journal of these calls, and its names.
fn made(request: &mut DumpRequest, copied: Copied) -> io::Result<(String, Sidecar)> {
    let most = Most::of_dump(copied.channels.len(), copied.wanted);
    let read = copied.into_run(request.why.clone(), most)?;
    let (mut names, journal) = (read.names, text_of(&read.run)?);
    if let Some(panic) = &request.panic {
        panic.add_to(&mut names);
        raise_ending(&mut names, read.raised);
    }
    let began = request.began.map(|began| Moment {
        stamp: began.stamp + read.raised,
        ..began
    });
    names.times.push_all(began);
    sort_by_key(&mut names.times, |moment| moment.stamp);
    names.fit_to(&read.run, &journal);
    names.add_sources(&|paths| Program::this().root_of(paths));
    Ok((journal, names))
}
