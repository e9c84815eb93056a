//! What isn't known of a run, since it wasn't recorded.

use super::Context;
use yovanelum_core::source::rw_journal::MOST_ENTRIES;
use yovanelum_record::listed::{IntoList, PushAll};
use yovanelum_record::visible;

/// Returns why not all of the run is known, one reason for each line.
pub(super) fn lines(context: &Context<'_>) -> Vec<String> {
    let unrecorded = &context.names.ending.unrecorded;
    let channels = [
        (
            unrecorded.channels,
            "were not recorded, since 64 were alive",
        ),
        (unrecorded.left, "left the run for later ones"),
        (
            unrecorded.handles,
            "were recorded up to the 65536th sender or receiver",
        ),
        (
            unrecorded.locked,
            "were locked by the thread that ended the process",
        ),
    ];
    let channels = channels.iter().filter(|(count, _)| *count > 0);
    let mut lines = before_window(context).into_iter().listed();
    lines.push_all(end_of_calls(context));
    lines.push_all(channels.map(|(count, what)| of_channels(*count, what)));
    lines
}

/// Says how many calls a window leaves out.
fn before_window(context: &Context<'_>) -> Option<String> {
    let window = context.names.window.as_ref()?;
    let count: u64 = window.channels.values().map(|channel| channel.calls).sum();
    let calls = visible::counted(count, "call");
    (count > 0).then(|| format!("{calls} came before the window"))
}

/// Says that recording ended early, if it did. Names of before that was noted don't say so.
fn end_of_calls(context: &Context<'_>) -> Option<String> {
    let ending = &context.names.ending;
    let calls = context.run.len();
    let is_full = context.history.most_entries() >= MOST_ENTRIES as u64;
    if ending.unrecorded.calls {
        return Some(format!(
            "recording ended at call {calls}, before the test did"
        ));
    }
    (is_full && ending.journal.is_none()).then(|| {
        format!("the journal ends at call {calls}, since a channel has as many as a journal takes")
    })
}

/// Says what became of some channels.
fn of_channels(count: u64, what: &str) -> String {
    let channels = visible::counted(count, "channel");
    match what.strip_prefix("were ") {
        Some(rest) if count == 1 => format!("{channels} was {rest}"),
        _ => format!("{channels} {what}"),
    }
}
