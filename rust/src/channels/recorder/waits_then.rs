//! The calls that wait when a panic begins. Its unwinding may close their channels or drop them, so
//! that they don't wait any more when the test has ended.

use super::Shared;
use crate::channels::channel::{ChannelState, WaitNow};
use crate::channels::channel_lock::ChannelLock;
use crate::channels::lock::try_lock_for;
use std::sync::{Arc, Weak};
use std::time::Duration;
use yovanelum_record::listed::PushAll;

/// How long a panic waits for the lock of a channel. The thread itself may hold it.
const PATIENCE: Duration = Duration::from_millis(5);

/// A call that had begun to wait and had not ended, and what it did then.
#[derive(Clone)]
pub(crate) struct WaitThen {
    channel: Weak<ChannelLock<ChannelState>>,
    pub(crate) then: WaitNow,
}

impl WaitThen {
    /// Whether it waited on this channel.
    pub(crate) fn is_on(&self, channel: &Arc<ChannelLock<ChannelState>>) -> bool {
        self.channel.as_ptr() == Arc::as_ptr(channel)
    }
}

impl Shared {
    /// Returns the calls that wait now, but for those on channels that stay locked.
    pub(crate) fn waits_then(&self) -> Vec<WaitThen> {
        let Some(channels) = try_lock_for(&self.channels, PATIENCE).map(|it| it.clone()) else {
            return vec![];
        };
        let mut waits = vec![];
        for channel in &channels {
            let Some(state) = try_lock_for(channel, PATIENCE) else {
                continue;
            };
            waits.push_all(state.who_waits().into_iter().map(|then| WaitThen {
                channel: Arc::downgrade(channel),
                then,
            }));
        }
        waits
    }
}
