//! The windows of a recorder's channels as one run: the leads first, and then the calls that were
//! kept.

use crate::channels::backend::{Cut, CutFault, ENTRIES_AT_MOST, Kept, Lead, Window, WindowFault};
use std::io;
use yovanelum_core::lists::{collected, reserved};
use yovanelum_core::source::rw_law::NoMemory;
use yovanelum_record::journal::Run;
use yovanelum_record::listed::IntoList;
use yovanelum_record::sorting::sort_by_key;

/// How many entries the journal of a flight recorder has at most, all channels together.
const MOST_OF_ALL: u64 = 1_000_000;

/// How much a journal has at most.
#[derive(Clone, Copy)]
pub(super) struct Most {
    /// How many entries all channels have together.
    all: u64,
    /// How far a receiver lags that is asked in the window. The lead has as many sends.
    lag: u64,
    /// The channel that the dump is about, and how far its receivers lag.
    wanted: Option<(usize, u64)>,
}

impl Most {
    /// That of a dump of `channels` channels, which is about this one of them.
    pub(super) fn of_dump(channels: usize, wanted: Option<usize>) -> Most {
        Most {
            all: MOST_OF_ALL,
            lag: MOST_OF_ALL / 4 / channels.max(1) as u64,
            wanted: wanted.map(|channel| (channel, MOST_OF_ALL / 2)),
        }
    }

    /// That of a test, whose journal has all that its channels keep.
    pub(super) fn of_test() -> Most {
        Most {
            all: u64::MAX,
            lag: ENTRIES_AT_MOST / 4,
            wanted: None,
        }
    }

    fn lag_on(self, channel: usize) -> u64 {
        match self.wanted {
            Some((wanted, most)) if wanted == channel => most,
            _ => self.lag,
        }
    }
}

/// The windows of channels, in their order.
pub(super) struct Windows {
    pub(super) run: Run,
    pub(super) windows: Vec<MadeWindow>,
    /// How many entries the leads have together.
    pub(super) lead: u64,
    /// By how much the stamps of the calls are raised.
    pub(super) raised: u64,
    /// The last stamp that a call of the run can have.
    pub(super) last: u64,
}

/// The window of a channel, and how it begins.
pub(super) struct MadeWindow {
    pub(super) window: Window,
    /// How many calls it has after the lead.
    pub(super) calls: u64,
    /// How many values were sent before these, on a broadcast.
    pub(super) sent: u64,
}

/// The last calls of a channel, and how many entries a lead of it can have at most, without the
/// values that its receivers have lost.
pub(super) struct Calls {
    pub(super) kept: Kept,
    pub(super) most_of_lead: u64,
}

impl Windows {
    /// Makes the windows of these channels, whose calls end before the first one that is stamped
    /// above `last`. Where that is before the first call of a channel, all end later.
    pub(super) fn of(channels: Vec<Calls>, last: u64, most: Most) -> io::Result<Windows> {
        let leads = fit(channels, most).map_err(of_fault)?;
        let lead = leads.iter().map(|(lead, _)| lead.len()).sum();
        let firsts = leads.iter().filter_map(|(lead, _)| lead.first_stamp());
        let first = firsts.clone().min().unwrap_or(u64::MAX);
        let raised = first_above(lead).saturating_sub(first);
        let is_late = firsts.max().is_some_and(|first| first > last);
        let last = if is_late { u64::MAX } else { last + raised };
        let mut cut = Cut::new();
        let mut windows =
            reserved(leads.len()).map_err(|NoMemory| of_fault(WindowFault::NoMemory))?;
        for (lead, sent) in leads {
            let calls = lead.calls();
            let window = lead.play(raised).map_err(of_fault)?;
            cut.add_window(&window, last).map_err(of_cut)?;
            windows.push(MadeWindow {
                window,
                calls,
                sent,
            });
        }
        Ok(Windows {
            run: cut.run().map_err(of_cut)?,
            windows,
            lead,
            raised,
            last,
        })
    }
}

/// Returns the least stamp that a call can have after leads of `lead` entries.
fn first_above(lead: u64) -> u64 {
    lead + 1
}

/// Leaves out the first calls of channels until a journal has room for all, and returns the leads,
/// each with how many values were sent before its calls.
fn fit(channels: Vec<Calls>, most: Most) -> Result<Vec<(Lead, u64)>, WindowFault> {
    let mut all = reserved(channels.len())?;
    for (number, mut channel) in channels.into_iter().enumerate() {
        let lag = most.lag_on(number);
        channel.kept.settle(lag)?;
        let room = ENTRIES_AT_MOST.saturating_sub(channel.most_of_lead + lag);
        // With all calls from the opening on there is no lead.
        if channel.kept.len() > room && channel.most_of_lead > 0 {
            skip_to(&mut channel.kept, room)?;
        }
        all.push(channel.kept);
    }
    share(&mut all, most.all)?;
    loop {
        let leads = leads(all)?;
        let entries: u64 = leads.iter().map(|(lead, _)| lead.len()).sum();
        let calls: Vec<u64> = leads.iter().map(|(lead, _)| lead.calls()).listed();
        let room = most.all.saturating_sub(entries);
        let (few, none) = (
            calls.iter().sum::<u64>() <= room,
            calls.iter().all(|it| *it == 0),
        );
        if few || none {
            return Ok(leads);
        }
        all = collected(
            leads.len(),
            leads.into_iter().map(|(lead, _)| lead.into_kept()),
        )?;
        share(&mut all, room)?;
    }
}

/// Returns the leads of channels, one after the other.
fn leads(channels: Vec<Kept>) -> Result<Vec<(Lead, u64)>, WindowFault> {
    let mut clock = 0;
    let mut leads = reserved(channels.len())?;
    for kept in channels {
        let sent = kept.sent();
        let lead = kept.lead(clock)?;
        clock += lead.len();
        leads.push((lead, sent));
    }
    Ok(leads)
}

/// Leaves out the first calls of the longest channels, so that all have no more calls than this
/// together.
fn share(channels: &mut [Kept], most: u64) -> Result<(), NoMemory> {
    let most = greatest_share(channels.iter().map(Kept::len).listed(), most);
    channels.iter_mut().try_for_each(|kept| skip_to(kept, most))
}

/// Leaves out the first calls of a channel that has more than this.
fn skip_to(kept: &mut Kept, most: u64) -> Result<(), NoMemory> {
    match kept.len().saturating_sub(most) {
        0 => Ok(()),
        too_many => kept.skip(too_many),
    }
}

/// Returns how many calls each channel may have, so that all have no more than this together.
fn greatest_share(mut lengths: Vec<u64>, most: u64) -> u64 {
    sort_by_key(&mut lengths, |length| *length);
    let (mut left, mut others) = (most, lengths.len() as u64);
    for length in lengths {
        if length > left / others {
            return left / others;
        }
        left -= length;
        others -= 1;
    }
    u64::MAX
}

fn of_fault(fault: WindowFault) -> io::Error {
    io::Error::other(match fault {
        WindowFault::NoMemory => "no memory for the journal",
        WindowFault::TooLong => "a channel has more handles and values than a journal takes",
        WindowFault::OutOfOrder | WindowFault::Dropped | WindowFault::Unlike => {
            "the journal differs from its channel, which is a bug of yovanelum"
        }
    })
}

fn of_cut(fault: CutFault) -> io::Error {
    match fault {
        CutFault::NoMemory => io::Error::other("no memory for the journal"),
        CutFault::NoChannels => io::Error::other("no channel is recorded"),
        CutFault::TooManyChannels | CutFault::OutOfOrder => io::Error::other(fault.to_string()),
    }
}

#[cfg(test)]
mod tests {
    use super::*;
    use crate::channels::recorder::Why;
    use crate::{Recorder, broadcast};

    #[test]
    fn all_calls_are_in_it_where_one_window_begins_later() {
        let recorder = Recorder::flight(10);
        let _entered = recorder.enter();
        let (orders, _audit) = broadcast::channel(4);
        let (prices, _chart) = broadcast::channel(4);
        orders.send(1).unwrap();
        let last = recorder.0.last();
        prices.send(2).unwrap();
        let copied = recorder.0.run().copied(None, last).unwrap();
        let read = copied.into_run(Why::asked(), Most::of_dump(2, None));
        assert_eq!(read.unwrap().run.len(), 2);
    }

    #[test]
    fn the_longest_channels_share_what_the_others_leave() {
        for (lengths, most, wanted) in [
            (vec![], 10, u64::MAX),
            (vec![4, 6], 10, u64::MAX),
            (vec![4, 7], 10, 6),
            (vec![9, 1, 9], 10, 4),
            (vec![5, 5, 5], 2, 0),
        ] {
            assert_eq!(greatest_share(lengths, most), wanted);
        }
    }
}
