//! What is known of a channel at a moment of a run that is explored.

use super::ChannelState;
use yovanelum_record::listed::IntoList;

/// A channel as it is when one is chosen.
pub(crate) struct Known {
    pub(crate) number: u32,
    pub(crate) name: Option<String>,
    pub(crate) is_watch: bool,
    pub(crate) receivers: Vec<KnownReceiver>,
}

/// A receiver that is alive then.
pub(crate) struct KnownReceiver {
    pub(crate) handle: u32,
    pub(crate) name: Option<String>,
    pub(crate) lags: bool,
}

impl ChannelState {
    /// Returns what a run that is explored knows of the channel with this number.
    pub(crate) fn known(&mut self, number: u32) -> Known {
        let capacity = self.core.capacity();
        let capacity = capacity.map(|capacity| capacity.next_power_of_two() as u64);
        let handles: Vec<u32> = self.receivers.iter().map(|it| it.number).listed();
        let receivers = handles.into_iter().map(|handle| {
            let unread = self.unread(handle);
            KnownReceiver {
                handle,
                name: self.seldom().handle_names.get(&handle.into()).cloned(),
                lags: capacity.is_some_and(|capacity| unread > capacity),
            }
        });
        let receivers = receivers.listed();
        Known {
            number,
            name: self.seldom().name.clone(),
            is_watch: capacity.is_none(),
            receivers,
        }
    }
}
