//! Which calls a snapshot names, and when they were made. A flight recorder looks at the clock at
//! few of them.

use super::ChannelState;
use yovanelum_record::clock::{Moment, moment_among};
use yovanelum_record::listed::IntoList;

impl ChannelState {
    /// Returns the stamp of the last send, or 0 if there was none or the channel isn't recorded.
    pub(crate) fn sent_stamp(&self) -> u64 {
        if self.is_recorded { self.sent_stamp } else { 0 }
    }

    /// Whether it may be known when a call was made: the last calls are kept.
    pub(crate) fn knows_times(&self) -> bool {
        self.last_calls.is_some()
    }

    /// Returns when the calls with these stamps were made, in milliseconds since 1970, where the
    /// last calls are kept and there are times around them. The recorder's clock is `clock` now.
    ///
    /// What is returned is kept, so that a dump tells the same.
    pub(crate) fn when(&mut self, stamps: &[u64], clock: u64) -> Vec<Option<u64>> {
        let waited = self.time_of_last_wait();
        let Some(last) = &mut self.last_calls else {
            return vec![None; stamps.len()];
        };
        // A call may have been made meanwhile.
        let latest = stamps.iter().copied().fold(clock, u64::max);
        let now = last.clock().times().moment(latest);
        let known = last.times_with(waited.into_iter().chain(now));
        let mut kept = |stamp| {
            let time = moment_among(&known, stamp)?;
            last.keep_time(time);
            Some(time.wall)
        };
        stamps.iter().map(|stamp| kept(*stamp)).listed()
    }

    /// Returns when the call that waits and has begun last has begun to, with the recorder's clock
    /// at that time. Where nobody calls anything later, it is close to the last call's.
    pub(super) fn time_of_last_wait(&self) -> Option<Moment> {
        let last_calls = self.last_calls.as_ref()?;
        let (_, wait) = self.waits.in_order().pop()?;
        last_calls.clock().moment_at(wait.since, wait.began?)
    }
}
