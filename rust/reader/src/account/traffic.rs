//! The values of the channels that facts tell of, and when their handles were there. The core
//! finds both. Of a window, what its lead has is told from what came behind it.

use yovanelum_record::journal::{
    self, ChannelValue, Counts, Findings, FoundTraffic, Loss, LossEnd, Run, TextFault,
    values_between, values_by,
};
use yovanelum_record::listed::IntoList;
use yovanelum_record::sidecar::{ChannelWindow, Sidecar};

/// The values of a channel, and the lives of its handles.
pub(super) struct ChannelTraffic {
    // None where there is nothing to tell of the channel.
    found: Option<journal::ChannelTraffic<u64>>,
    last_place: u64,
    // How many entries lead to the window, and what that leaves out of this channel.
    lead: u64,
    window: Option<ChannelWindow>,
}

/// How many values, or changes of a watch, came to a handle.
#[derive(Clone, Copy, Default)]
pub(super) struct Delivered {
    pub(super) count: u64,
    /// Whether these are all that the channel was sent, of which some may have come before the
    /// handle.
    pub(super) is_most: bool,
}

/// A loss that didn't end in the lead.
pub(super) struct FoundLoss {
    /// The loss, with as many values as were really lost.
    pub(super) loss: Loss,
    /// The place at which its receiver received last before it, or 0.
    pub(super) received: u64,
    // The number of the first value that the journal has as lost.
    first: u64,
    // How many of the values were overwritten before the window, really and by the lead.
    before: u64,
    before_here: u64,
}

/// The values of a loss.
pub(super) struct LostValues<'a> {
    /// How many of them were overwritten before the window, which doesn't have them.
    pub(super) before: u64,
    pub(super) rest: &'a [ChannelValue<u64>],
}

/// What came on the channels of a run.
pub(super) struct Traffic {
    channels: Vec<ChannelTraffic>,
    losses: Vec<FoundLoss>,
}

impl Traffic {
    /// Keeps what came on each channel of which there is something to tell.
    pub(super) fn of(
        run: &Run,
        names: &Sidecar,
        findings: &Findings,
        found: FoundTraffic,
    ) -> Traffic {
        let mut found_by = found.into_iter();
        let told = are_told(run, findings);
        let found = told.iter();
        let found = found.map(|is_told| found_by.next().flatten().filter(|_| *is_told));
        let channels = (0..).zip(found);
        let channels = channels.map(|(channel, found)| ChannelTraffic {
            found,
            last_place: run.len(),
            lead: names.lead(),
            window: names.window_of(channel).cloned(),
        });
        let channels: Vec<_> = channels.listed();
        let starts = findings.losses().iter().zip(findings.starts());
        let behind = starts.filter(|(loss, _)| is_behind(names.lead(), loss));
        let losses = behind.map(|(loss, start)| {
            let channel = &channels[loss.channel as usize];
            channel.found(loss, start.first, start.received)
        });
        let losses = losses.listed();
        Traffic { channels, losses }
    }

    pub(super) fn channel(&self, channel: u32) -> &ChannelTraffic {
        &self.channels[channel as usize]
    }

    /// Returns the losses of the run, in the order in which they began.
    pub(super) fn losses(&self) -> &[FoundLoss] {
        &self.losses
    }

    /// Returns the values of the loss of this index.
    pub(super) fn lost(&self, index: usize) -> LostValues<'_> {
        let found = &self.losses[index];
        let channel = self.channel(found.loss.channel);
        let first = found.first + found.before_here;
        let count = found.loss.lost - found.before;
        LostValues {
            before: found.before,
            rest: &channel.values()[first as usize..][..count as usize],
        }
    }
}

/// Finds what came on each channel that lost a value, or with changes that a receiver missed.
///
/// # Errors
///
/// Returns `NoMemory` if there is none for what is found.
pub(super) fn told(run: &Run, findings: &Findings) -> Result<FoundTraffic, TextFault> {
    let are_told = are_told(run, findings);
    if are_told.contains(&true) {
        run.traffic(&are_told)
    } else {
        Ok(vec![])
    }
}

/// Whether there is something to tell of each channel.
fn are_told(run: &Run, findings: &Findings) -> Vec<bool> {
    let mut are_told = vec![false; run.specs().len()];
    for loss in findings.losses() {
        are_told[loss.channel as usize] = true;
    }
    for totals in findings.totals() {
        if let Counts::Watch(counts) = totals.counts {
            are_told[totals.channel as usize] |= counts.unlooked > 0 || counts.missed > 0;
        }
    }
    are_told
}

/// Whether a loss didn't end in the lead.
fn is_behind(lead: u64, loss: &Loss) -> bool {
    match loss.end {
        LossEnd::Told(place) | LossEnd::Dropped(place) => place > lead,
        LossEnd::Open => true,
    }
}

impl ChannelTraffic {
    /// The values by number: those sent to a broadcast, or the first value of a watch and its
    /// changes.
    fn values(&self) -> &[ChannelValue<u64>] {
        self.found.as_ref().map_or(&[], |found| found.values())
    }

    /// How many values came behind one place, up to the other.
    fn came_between(&self, after: u64, to: u64) -> u64 {
        values_between(self.values(), after, to)
    }

    /// Returns a loss as it is told.
    fn found(&self, loss: &Loss, first: u64, received: u64) -> FoundLoss {
        let before_here = match loss.from {
            from if from <= self.lead => self.came_between(from - 1, self.lead),
            _ => 0,
        };
        let lags = self.window.as_ref().map(|window| &window.lags);
        let real = lags.and_then(|lags| lags.get(&loss.receiver.into()));
        let before = match real {
            Some(real) if before_here > 0 => *real,
            _ => before_here,
        };
        FoundLoss {
            loss: Loss {
                lost: loss.lost - before_here + before,
                ..*loss
            },
            received: if received > self.lead { received } else { 0 },
            first,
            before,
            before_here,
        }
    }

    /// The places where a handle was made, and where it was dropped or the run ends.
    fn span(&self, handle: u32) -> Option<(u64, u64)> {
        let life = self.found.as_ref()?.lives().get(handle as usize)?;
        Some((life.made(), life.dropped().unwrap_or(self.last_place)))
    }

    /// Whether a handle was there before the window, so that not all that it did is known.
    pub(super) fn is_older(&self, handle: u32) -> bool {
        let span = self.span(handle);
        self.window.is_some() && span.is_some_and(|(made, _)| made <= self.lead)
    }

    /// How many values came while a handle was there. Of one that was there before the window, it
    /// is how many the channel was sent, and of a watch how many came in the window.
    pub(super) fn came_to(&self, handle: u32) -> Delivered {
        let Some((made, end)) = self.span(handle) else {
            return Delivered::default();
        };
        if !self.is_older(handle) {
            return Delivered {
                count: self.came_between(made, end),
                is_most: false,
            };
        }
        let before = self.window.as_ref().and_then(|window| window.sent);
        Delivered {
            count: before.unwrap_or(0) + self.came_between(self.lead, end.max(self.lead)),
            is_most: before.is_some(),
        }
    }

    /// How many changes of a watch the lead makes while a handle is there.
    pub(super) fn came_in_lead(&self, handle: u32) -> u64 {
        match self.span(handle) {
            Some((made, _)) if made < self.lead => self.came_between(made, self.lead),
            _ => 0,
        }
    }

    /// Returns the last change of a watch up to the end of a handle.
    pub(super) fn last_came_to(&self, handle: u32) -> Option<&ChannelValue<u64>> {
        let (_, end) = self.span(handle)?;
        let values = self.values();
        let came = values[..values_by(values, end) as usize].last();
        came.filter(|value| value.since > 0)
    }
}
