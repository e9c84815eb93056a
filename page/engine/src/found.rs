//! What is found in a run, in columns: its losses, closings, totals, handles and values.

use crate::part::{NONE, Part, word, word_or_none};
use crate::shim::alloc::Global;
use crate::source::rw_findings::{Life, losses_of};
use crate::source::rw_handles::Kind;
use crate::source::rw_law::NoMemory;
use yovanelum_record::journal::{Counts, Findings, FoundTraffic, LossEnd, Run};

/// Returns the losses: of each its channel and receiver, the place from which on it is, how many
/// values were lost, how it ended (0 told, 1 dropped, 2 open), and at which place.
///
/// # Errors
///
/// Returns `NoMemory` if there is none for them.
pub(crate) fn losses(run: &Run) -> Result<Part, NoMemory> {
    let losses = losses_of(Global, &run.0)?;
    let numbers = losses.iter().flat_map(|loss| {
        let (end, to) = match loss.end {
            LossEnd::Told(place) => (0, word(place)),
            LossEnd::Dropped(place) => (1, word(place)),
            LossEnd::Open => (2, NONE),
        };
        [
            loss.channel,
            loss.receiver,
            word(loss.from),
            word(loss.lost),
            end,
            to,
        ]
    });
    Ok(numbers.collect::<Vec<u32>>().into())
}

/// Returns all else: closings, late receivers, totals of the receivers of broadcasts and of those
/// of watches, handles and values. The last two are of what came on all channels.
pub(crate) fn of(findings: &Findings, traffic: &FoundTraffic) -> Vec<Part> {
    let mut parts = vec![
        closings(findings),
        late(findings),
        broadcasts(findings),
        watches(findings),
    ];
    parts.extend(handles(traffic));
    parts.extend(values(traffic));
    parts
}

/// The channels that have no sender any more: of each its number, and where it lost the last one.
fn closings(findings: &Findings) -> Part {
    let numbers = findings
        .closings()
        .iter()
        .flat_map(|closing| [closing.channel, word(closing.place)]);
    numbers.collect::<Vec<u32>>().into()
}

/// The receivers that were there then: of each its channel and number, where it was first told, and
/// how many values it received from then on.
fn late(findings: &Findings) -> Part {
    let numbers = findings.late().iter().flat_map(|late| {
        [
            late.channel,
            late.receiver,
            word_or_none(late.told),
            word(late.read_on),
        ]
    });
    numbers.collect::<Vec<u32>>().into()
}

/// The receivers of broadcasts: of each its channel and number, how many values it received, and
/// lost, its greatest lag, the first place with that, and how many values it has yet to receive.
fn broadcasts(findings: &Findings) -> Part {
    let numbers = findings
        .totals()
        .iter()
        .flat_map(|total| match total.counts {
            Counts::Broadcast(it) => {
                let unread = word_or_none(it.unread);
                vec![
                    total.channel,
                    total.receiver,
                    word(it.received),
                    word(it.lost),
                    word(it.worst),
                    word(it.worst_place),
                    unread,
                ]
            }
            Counts::Watch(_) => vec![],
        });
    numbers.collect::<Vec<u32>>().into()
}

/// The receivers of watches: of each its channel and number, how many changes it missed, and how
/// many it never looked at.
fn watches(findings: &Findings) -> Part {
    let numbers = findings
        .totals()
        .iter()
        .flat_map(|total| match total.counts {
            Counts::Watch(it) => vec![
                total.channel,
                total.receiver,
                word(it.missed),
                word(it.unlooked),
            ],
            Counts::Broadcast(_) => vec![],
        });
    numbers.collect::<Vec<u32>>().into()
}

/// The handles of all channels: of each its channel and number, its kind, where it was made and by
/// whom, where it was dropped, and the index past its callers; and these: an actor, and how many
/// calls it made with the handle.
fn handles(traffic: &FoundTraffic) -> [Part; 2] {
    let (mut handles, mut callers) = (vec![], vec![]);
    for (channel, found) in (0..).zip(traffic) {
        let lives = found.iter().flat_map(|found| found.lives());
        for (number, life) in (0..).zip(lives) {
            let calls = (0..).zip(life.calls()).filter(|(_, count)| **count > 0);
            callers.extend(calls.flat_map(|(actor, count)| [actor, word(*count)]));
            handles.extend([
                channel,
                number,
                kind_of(life),
                word(life.made()),
                life.maker().unwrap_or(NONE),
                word_or_none(life.dropped()),
                callers.len() as u32,
            ]);
        }
    }
    [handles.into(), callers.into()]
}

/// The number of a kind, as the page has it (`run/kinds.js`).
fn kind_of(life: &Life) -> u32 {
    match life.kind() {
        Kind::Sender => 0,
        Kind::Receiver => 1,
        Kind::Weak => 2,
    }
}

/// The values of all channels, one channel after the other: where each was sent, and where it was
/// overwritten; and for each channel the index past its last value, or 0 if it has none.
fn values(traffic: &FoundTraffic) -> [Part; 3] {
    let (mut sends, mut overwritten, mut ends) = (vec![], vec![], vec![]);
    for found in traffic {
        let values = found.as_ref().map_or(&[][..], |found| found.values());
        sends.extend(values.iter().map(|value| word(value.since)));
        overwritten.extend(values.iter().map(|value| word_or_none(value.overwritten)));
        let end = sends.len() as u32;
        ends.push(if values.is_empty() { 0 } else { end });
    }
    [sends.into(), overwritten.into(), ends.into()]
}
