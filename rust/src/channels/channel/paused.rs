//! A channel of a flight recorder of which too many handles are alive: its calls aren't kept until
//! there is room again.

use super::ChannelState;
use super::chunk_size::ChunkSize;
use super::last_calls::LastCalls;
use super::made_handles::MadeHandles;
use crate::channels::recorder::Shared;
use yovanelum_record::clock::Times;
use yovanelum_record::listed::IntoList;
use yovanelum_record::numbered::NumberMap;

/// What is known of a channel whose last calls aren't kept for a time.
pub(crate) struct PausedFlight {
    size: ChunkSize,
    // How many calls were made until now.
    calls: u64,
    // The handles of before.
    handles: MadeHandles,
}

impl PausedFlight {
    /// Counts a call, which gets the recorder's next number, since the core keeps it all the same.
    pub(super) fn tick(&mut self, recorder: &Shared, is_shared: bool) -> u64 {
        self.calls += 1;
        recorder.tick(is_shared)
    }

    /// Counts a call less, since it wasn't made.
    pub(super) fn remove_last(&mut self) {
        self.calls -= 1;
    }
}

impl ChannelState {
    /// Keeps no calls until there is room for further handles, if the last calls were kept. Returns
    /// `false` if all calls are.
    pub(super) fn pause(&mut self) -> bool {
        let Some(mut last) = self.last_calls.take() else {
            return false;
        };
        self.is_recorded = false;
        self.paused = Some(Box::new(PausedFlight {
            size: *last.size(),
            calls: last.count(),
            handles: last.handles,
        }));
        true
    }

    /// Keeps the last calls again, from now on, where that was paused, if there is room. Returns
    /// whether it does.
    #[cold]
    #[inline(never)]
    pub(super) fn goes_on(&mut self, recorder: &Shared) -> bool {
        if !self.core.has_room_again() {
            return false;
        }
        let Some((numbers, created)) = self.core.forget_all() else {
            return false;
        };
        let Some(paused) = self.paused.take() else {
            return false;
        };
        recorder.skip(self.core.take_by_nobody());
        let last = self.last_calls_after(*paused, (&numbers, created), recorder.times);
        self.last_calls = Some(Box::new(last));
        self.is_recorded = true;
        recorder.tell_of_room();
        true
    }

    /// Returns what is known of the last calls, of which there are none yet. The handles have these
    /// numbers, and `created` handles were created in all.
    fn last_calls_after(
        &self,
        paused: PausedFlight,
        (numbers, created): (&[u32], u64),
        times: Times,
    ) -> LastCalls {
        let receivers = self.receivers.iter();
        let receivers: NumberMap<_, _> = receivers.map(|it| (it.number, it.made_at)).collect();
        let handles = numbers.iter().map(|number| {
            let nth = self.core.nth(*number);
            let made_at = receivers.get(number).copied().flatten();
            (nth, made_at.or_else(|| paused.handles.made_at_nth(nth)))
        });
        let handles = MadeHandles::of(handles.listed(), created);
        let mut last = LastCalls::new(paused.size, self.retained_capacity(), times);
        last.begin(true, self.sent_count());
        last.begin_again(paused.calls, handles);
        last
    }
}
