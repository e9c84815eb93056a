//! The last calls of a channel as they are copied for a journal, with all that its names say.

use super::chunk_size::ChunkSize;
use super::last_calls::{LastCalls, LastCallsCopy};
use super::{CallSite, ChannelState, WaitNow};
use crate::channels::backend::{Kept, MOST_CHUNK};
use yovanelum_core::source::rw_law::NoMemory;
use yovanelum_record::clock::Times;
use yovanelum_record::listed::IntoList;
use yovanelum_record::numbered::NumberMap;
use yovanelum_record::sidecar::Maker;

/// A copy of a channel's last calls.
pub(crate) struct KeptChannel {
    pub(crate) calls: Kept,
    pub(crate) noted: NotedChannel,
}

/// A copy of what is known of a channel's last calls, beside the core. Its handles are known by
/// their numbers in the channel's table, or by those that they had there before a renumbering, as
/// in the calls.
pub(crate) struct NotedChannel {
    pub(crate) calls: LastCallsCopy,
    pub(crate) name: Option<String>,
    pub(crate) made_by: Option<Maker>,
    /// The names of handles, by how many were created before.
    pub(crate) names: NumberMap<u64, String>,
    /// The calls that began to wait and had not ended, each with its handle.
    pub(crate) waits: Vec<(u32, WaitNow)>,
    /// Whether it is a watch.
    pub(crate) is_watch: bool,
    /// How many values it retains at most.
    pub(crate) capacity: u64,
}

impl KeptChannel {
    /// How many entries a lead can have at most, without the values that receivers have lost. It
    /// has none if no call is left out.
    pub(crate) fn most_of_lead(&self) -> u64 {
        if self.noted.calls.count <= self.calls.len() {
            return 0;
        }
        // A lead makes each handle that is alive, a value for each that is retained, and drops two.
        u64::from(self.noted.calls.handles.len()) + self.noted.capacity + 2
    }
}

impl NotedChannel {
    /// How many calls were made before the last `last` calls.
    pub(crate) fn before(&self, last: u64) -> u64 {
        self.calls.count.saturating_sub(last)
    }

    /// Returns where the last `last` calls were made. The first ones may not be known.
    pub(crate) fn sites(&self, last: u64) -> impl Iterator<Item = CallSite> {
        let (calls, sites) = (last as usize, &self.calls.sites);
        let unknown = calls.saturating_sub(sites.len());
        let known = &sites[sites.len() - (calls - unknown)..];
        std::iter::repeat_n(None, unknown).chain(known.iter().copied())
    }

    /// Returns the name of the handle before which `nth` others were created.
    pub(crate) fn name_of(&self, nth: u64) -> Option<&String> {
        self.names.get(&nth)
    }
}

impl ChannelState {
    /// Notes the last calls alone, by chunks of this size. The channel was opened now, to keep
    /// these, and no call was made.
    pub(super) fn fly(&mut self, size: ChunkSize, times: Times) {
        let mut last = Box::new(LastCalls::new(size, self.retained_capacity(), times));
        last.begin(true, self.sent_count());
        self.last_calls = Some(last);
    }

    /// Goes on with the last calls alone. It makes each recorded call again. At an error nothing
    /// has changed.
    pub(crate) fn keep_last(&mut self, times: Times) -> Result<(), NoMemory> {
        if self.is_recorded && self.keeps_all {
            let actors = self.actors_of_all();
            self.core.keep_last(MOST_CHUNK)?;
            self.set_last_calls(ChunkSize::new(MOST_CHUNK), times, actors);
        }
        Ok(())
    }

    /// Notes the last calls by their chunks, from what is known of all calls, which these actors
    /// have made.
    fn set_last_calls(&mut self, size: ChunkSize, times: Times, actors: u64) {
        let capacity = self.retained_capacity();
        let mut noted = self.noted(size, capacity, times, actors);
        noted.begin(false, self.sent_count());
        self.last_calls = Some(Box::new(noted));
        self.keeps_all = false;
        self.locations = Default::default();
        if let Some(seldom) = &mut self.seldom {
            seldom.forget_calls();
        }
        self.actors = (0, 0);
    }

    /// How many values the channel retains at most.
    pub(super) fn retained_capacity(&self) -> usize {
        let capacity = self.core.capacity();
        capacity.map_or(1, usize::next_power_of_two)
    }

    /// Copies the last calls, or all calls if all are recorded. Returns `None` if the recording of
    /// the last calls has ended.
    pub(crate) fn kept(&mut self, times: Times) -> Result<Option<KeptChannel>, NoMemory> {
        let keeps_past = self.core.keeps_past();
        let noted = match &self.last_calls {
            Some(last) => LastCallsCopy {
                last_wait: self.time_of_last_wait(),
                ..last.copy(keeps_past)?
            },
            None if self.core.recorded().keeps_last() => return Ok(None),
            None => {
                let actors = self.actors_of_all();
                let all = ChunkSize::new(MOST_CHUNK);
                self.noted(all, usize::MAX, times, actors).copy(false)?
            }
        };
        let calls = self.core.recorded().kept(MOST_CHUNK)?;
        // One by one, since `collect` would sort them in one list first.
        let mut names = NumberMap::new();
        names.extend(noted.names.iter().cloned());
        let alive = self.seldom().handle_names.iter();
        names.extend(alive.map(|(number, name)| (self.core.nth(*number as u32), name.clone())));
        let kept_number = |handle: u32| {
            let number = self.core.number_in_table(handle);
            let last = self.last_calls.as_ref();
            last.map_or(number, |last| last.kept_number(number, keeps_past))
        };
        let waits = self.who_waits().into_iter();
        let waits = waits.map(|call| (kept_number(call.wait.handle), call));
        let noted = NotedChannel {
            waits: waits.listed(),
            calls: noted,
            name: self.seldom().name.clone(),
            made_by: self.made_by.clone(),
            names,
            is_watch: self.core.capacity().is_none(),
            capacity: self.retained_capacity() as u64,
        };
        Ok(Some(KeptChannel { calls, noted }))
    }
}
