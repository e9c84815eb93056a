//! The names beside a journal that has the last calls of its channels.

use super::saved::Indexes;
use super::windows::{MadeWindow, Windows};
use crate::channels::backend::{Actor, ENTRIES_AT_MOST, LEAD, Window};
use crate::channels::channel::{NotedChannel, WaitNow};
use crate::channels::recorder::Why;
use std::sync::Arc;
use yovanelum_core::lists::{collected, reserved};
use yovanelum_core::source::rw_law::NoMemory;
use yovanelum_record::by_text::TextMap;
use yovanelum_record::clock::{Moment, wall};
use yovanelum_record::listed::{Keep, PushAll};
use yovanelum_record::numbered::{NumberMap, NumberSet};
use yovanelum_record::sidecar::{ChannelWindow, Sidecar, WindowNames};
use yovanelum_record::sorting::sort_by_key;

/// What the actor of leads is called.
const BEFORE: &str = "before the window";

impl Why {
    /// Somebody has asked for the journal of a flight recorder.
    pub(super) fn asked() -> Why {
        Why {
            trigger: "call",
            reason: "the journal was asked for".to_string(),
            at: wall(),
        }
    }

    /// A test has recorded more than a journal takes.
    pub(super) fn past_limit() -> Why {
        Why {
            trigger: "limit",
            reason: format!(
                "a channel had more calls than a journal takes ({ENTRIES_AT_MOST}), so the beginning was dropped"
            ),
            at: wall(),
        }
    }
}

/// Adds what is known of the channels, whose windows these are, to the names of the recorder. Lists
/// that grow with calls or handles may find no memory.
pub(super) fn add(
    names: &mut Sidecar,
    indexes: &mut Indexes,
    (channels, made): (&[NotedChannel], &Windows),
    why: Why,
) -> Result<(), NoMemory> {
    let mut of_channels = reserved(channels.len())?;
    let mut callers = Callers::default();
    for (channel, made) in channels.iter().zip(&made.windows) {
        let window = &made.window;
        let number = of_channels.len() as u64;
        let mut adding = Adding {
            names,
            indexes,
            number,
            channel,
            made,
            window,
            real: real_handles(channel, window)?,
            callers: &mut callers,
        };
        adding.add_names()?;
        adding.add_calls()?;
        adding.add_callers()?;
        adding.add_waits();
        of_channels.push((number, adding.described()?));
    }
    callers.add_to(names);
    if made.lead > 0 {
        let lead = LEAD.number().into();
        names.actors.get_or_insert_with(lead, || BEFORE.into());
    }
    names.window = Some(WindowNames {
        trigger: why.trigger.to_string(),
        reason: why.reason,
        at: why.at,
        lead: made.lead,
        channels: of_channels.into_iter().collect(),
    });
    names.times = times(channels)?;
    keep_texts_of_run(names, channels, made);
    raise(names, made);
    Ok(())
}

/// Leaves out the texts of values that no call of the run has.
fn keep_texts_of_run(names: &mut Sidecar, channels: &[NotedChannel], made: &Windows) {
    if names.values.is_empty() {
        return;
    }
    // Of each channel, the values of its lead, and the least one of the calls after it, which have
    // them in the order of their numbers.
    let mut of_channels = vec![(NumberSet::new(), u64::MAX); made.windows.len()];
    for (place, entry) in made.run.entries() {
        let (in_lead, least) = &mut of_channels[entry.channel as usize];
        match entry.value {
            Some(value) if place <= made.lead => drop(in_lead.insert(value)),
            Some(value) => *least = value.min(*least),
            None => {}
        }
    }
    for (number, channel) in (0..).zip(channels) {
        let (in_lead, least) = &mut of_channels[number as usize];
        // A lead sends this value in place of those that nobody knows any more.
        if !channel.is_watch && made.windows[number as usize].sent > channel.capacity {
            in_lead.remove(&0);
        }
        if let Some(texts) = names.values.get_mut(&number) {
            texts.retain(|value, _| value >= least || in_lead.contains(value));
        }
    }
    names.values.retain(|_, texts| !texts.is_empty());
}

/// Collects pairs, of which there may be many.
fn inserted<V>(pairs: impl Iterator<Item = (u64, V)>) -> Result<NumberMap<u64, V>, NoMemory> {
    let mut map = NumberMap::new();
    for (number, value) in pairs {
        map.try_insert(number, value)?;
    }
    Ok(map)
}

/// Returns the number in the channel's table of each handle of the journal that isn't only in the
/// lead.
fn real_handles(channel: &NotedChannel, window: &Window) -> Result<Vec<Option<u32>>, NoMemory> {
    let mut real: Vec<Option<u32>> = Vec::new();
    for number in 0..channel.calls.handles.len() {
        if let Some(in_journal) = window.number(number) {
            let len = real.len().max(in_journal as usize + 1);
            real.try_reserve(len - real.len()).map_err(|_| NoMemory)?;
            real.resize(len, None);
            real[in_journal as usize] = Some(number);
        }
    }
    Ok(real)
}

/// Returns the times of calls, in the order of their stamps.
fn times(channels: &[NotedChannel]) -> Result<Vec<Moment>, NoMemory> {
    let count = channels.iter().map(|it| it.calls.moments.len() + 1).sum();
    let mut moments = reserved(count)?;
    for channel in channels {
        moments.extend_from_slice(&channel.calls.moments);
    }
    // Those that were noted come first, and are what snapshots have told.
    moments.push_all(channels.iter().filter_map(|it| it.calls.last_wait));
    sort_by_key(&mut moments, |moment| moment.stamp);
    moments.dedup_by_key(|moment| moment.stamp);
    Ok(moments)
}

/// Raises the stamps of the names as those of the calls are.
fn raise(names: &mut Sidecar, made: &Windows) {
    let waits = names.waiting.iter_mut().map(|wait| &mut wait.since);
    let times = names.times.iter_mut().map(|moment| &mut moment.stamp);
    for stamp in waits.chain(times) {
        *stamp = stamp.saturating_add(made.raised);
    }
    names.times.keep(|moment| moment.stamp <= made.last);
    sort_by_key(&mut names.waiting, |wait| wait.since);
}

/// Raises the stamps of how a test ended by as much.
pub(super) fn raise_ending(names: &mut Sidecar, raised: u64) {
    let panics = names.ending.panics.iter_mut();
    let panics = panics.map(|panic| &mut panic.since);
    let returned = names.ending.returned.iter_mut().map(|it| &mut it.since);
    for since in panics.chain(returned) {
        *since = since.saturating_add(raised);
    }
}

/// Adds what is known of one channel.
struct Adding<'a> {
    names: &'a mut Sidecar,
    indexes: &'a mut Indexes,
    number: u64,
    channel: &'a NotedChannel,
    made: &'a MadeWindow,
    window: &'a Window,
    // By the journal's numbers.
    real: Vec<Option<u32>>,
    callers: &'a mut Callers,
}

/// The numbers of callers that share one in the journal, by their names. No actor has them.
#[derive(Default)]
struct Callers(TextMap<u64>);

impl Callers {
    fn number(&mut self, name: &Arc<str>) -> u64 {
        let next = (Actor::MOST + self.0.len()) as u64;
        *self.0.get_or_insert_with(name, || next)
    }

    /// Adds their names to those of the actors.
    fn add_to(self, names: &mut Sidecar) {
        for (name, number) in self.0.iter() {
            names.actors.insert(*number, name.to_string());
        }
    }
}

impl Adding<'_> {
    /// Adds the names of the channel and of its handles, where these were created, and the texts of
    /// its values.
    fn add_names(&mut self) -> Result<(), NoMemory> {
        let Adding {
            names,
            number,
            channel,
            ..
        } = self;
        let (number, handles) = (*number, &channel.calls.handles);
        if let Some(name) = &channel.name {
            names.channels.insert(number, name.clone());
        }
        if let Some(maker) = &channel.made_by {
            names.matching.made_by.insert(number, maker.clone());
        }
        let texts = channel.calls.texts.iter();
        let texts = texts.map(|(value, text)| (*value, text.to_string()));
        let texts = inserted(texts)?;
        if !texts.is_empty() {
            names.values.insert(number, texts);
        }
        let real = (0..).zip(&self.real);
        let real = real.filter_map(|(in_journal, real)| Some((in_journal, (*real)?)));
        let named = real.clone().filter_map(|(in_journal, real)| {
            Some((in_journal, channel.name_of(handles.nth(real))?.clone()))
        });
        let named = inserted(named)?;
        if !named.is_empty() {
            names.handles.insert(number, named);
        }
        let made = real.filter_map(|(in_journal, real)| {
            Some((in_journal, self.indexes.of(handles.made_at(real)?)))
        });
        names.made.insert(number, inserted(made)?);
        Ok(())
    }

    /// Adds where each call was made, and which ones have waited or were cancelled. The lead's were
    /// made nowhere.
    fn add_calls(&mut self) -> Result<(), NoMemory> {
        let (number, lead) = (self.number, self.window.lead());
        let mut calls = reserved((lead + self.made.calls) as usize)?;
        calls.resize(lead as usize, None);
        let sites = self.channel.sites(self.made.calls);
        calls.push_all(sites.map(|site| site.map(|location| self.indexes.of(location))));
        if !calls.is_empty() {
            self.names.calls.insert(number, calls);
        }
        let before = self.channel.before(self.made.calls);
        let entries = |indexes: &[u64]| {
            let kept = indexes.iter().filter_map(|index| index.checked_sub(before));
            collected(indexes.len(), kept.map(|index| lead + index))
        };
        let waited = entries(&self.channel.calls.waited)?;
        if !waited.is_empty() {
            self.names.matching.waited.insert(number, waited);
        }
        let cancelled = entries(&self.channel.calls.cancelled)?;
        if !cancelled.is_empty() {
            self.names.matching.cancelled.insert(number, cancelled);
        }
        Ok(())
    }

    /// Adds who has made the calls of actors that stand for several.
    fn add_callers(&mut self) -> Result<(), NoMemory> {
        let (lead, before) = (self.window.lead(), self.channel.before(self.made.calls));
        let calls = self.channel.calls.sharing.iter();
        let calls = calls.filter_map(|(call, name)| Some((call.checked_sub(before)?, name)));
        let callers = calls.map(|(call, name)| (lead + call, self.callers.number(name) as usize));
        let callers = inserted(callers)?;
        if !callers.is_empty() {
            self.names.callers.insert(self.number, callers);
        }
        Ok(())
    }

    fn add_waits(&mut self) {
        let waits = self.channel.waits.iter();
        let waits = waits.filter_map(|(handle, call): &(u32, WaitNow)| {
            let handle = self.window.number(*handle)?;
            Some(self.indexes.waiting(call, self.number, handle.into()))
        });
        self.names.waiting.push_all(waits);
    }

    /// Returns how the window of the channel begins.
    fn described(&self) -> Result<ChannelWindow, NoMemory> {
        let handles = &self.channel.calls.handles;
        let real = self.real.iter();
        let lags = self.window.lags();
        let lags = lags.filter_map(|(real, lag)| Some((self.window.number(real)?.into(), lag)));
        let nths = real.map(|real| real.map(|real| handles.nth(real)));
        Ok(ChannelWindow {
            lead: self.window.lead(),
            calls: self.channel.before(self.made.calls),
            sent: (!self.channel.is_watch).then_some(self.made.sent),
            handles: collected(self.real.len(), nths)?,
            lags: lags.collect(),
        })
    }
}
