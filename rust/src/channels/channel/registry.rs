//! The channels of the process whose senders or receivers are alive, for those who ask what is on
//! all of them.

use super::ChannelState;
use crate::channels::channel_lock::ChannelLock;
use crate::channels::lock::lock;
use crate::channels::recorder::Shared;
use std::sync::{Arc, Mutex, Weak};
use yovanelum_record::listed::{IntoList, PushAll};
use yovanelum_record::sorting::sort_by_key;

/// A channel of the list.
struct Listed {
    // In the order in which channels were created.
    number: u64,
    // The channel's recorder, if it has one.
    recorder: Option<Weak<Shared>>,
    state: Weak<ChannelLock<ChannelState>>,
}

impl Listed {
    fn is_of(&self, recorder: &Arc<Shared>) -> bool {
        let of = self.recorder.as_ref();
        of.is_some_and(|of| of.as_ptr() == Arc::as_ptr(recorder))
    }

    fn upgrade(&self) -> Option<RegisteredChannel> {
        let recorder = self.recorder.as_ref().and_then(Weak::upgrade);
        Some((self.state.upgrade()?, recorder))
    }
}

/// The list. The slot of a channel is used again once it is gone.
struct All {
    next: u64,
    slots: Vec<Option<Listed>>,
    free: Vec<usize>,
}

static ALL: Mutex<All> = Mutex::new(All {
    next: 0,
    slots: Vec::new(),
    free: Vec::new(),
});

/// A channel that is on the list until this is dropped.
pub(super) struct Registered(usize);

impl Registered {
    /// Adds a channel, which belongs to this recorder or to none.
    pub(super) fn add(
        state: &Arc<ChannelLock<ChannelState>>,
        recorder: Option<&Arc<Shared>>,
    ) -> Registered {
        let recorder = recorder.map(Arc::downgrade);
        let state = Arc::downgrade(state);
        let mut all = lock(&ALL);
        let number = all.next;
        all.next += 1;
        let entry = Some(Listed {
            number,
            recorder,
            state,
        });
        match all.free.pop() {
            Some(slot) => {
                all.slots[slot] = entry;
                Registered(slot)
            }
            None => {
                all.slots.push(entry);
                Registered(all.slots.len() - 1)
            }
        }
    }
}

impl Drop for Registered {
    fn drop(&mut self) {
        let Registered(slot) = *self;
        let mut all = lock(&ALL);
        let removed = all.slots[slot].take();
        all.free.push(slot);
        drop(all);
        drop(removed);
    }
}

/// A channel whose senders or receivers are alive, with its recorder if it has one.
pub(crate) type RegisteredChannel = (Arc<ChannelLock<ChannelState>>, Option<Arc<Shared>>);

/// Returns the channels whose senders or receivers are alive, in the order of their creation: all,
/// or those of this recorder.
pub(crate) fn all(of_recorder: Option<&Arc<Shared>>) -> Vec<RegisteredChannel> {
    let all = lock(&ALL);
    let mut channels = vec![];
    for entry in all.slots.iter().flatten() {
        if of_recorder.is_none_or(|wanted| entry.is_of(wanted)) {
            channels.push_all(entry.upgrade().map(|channel| (entry.number, channel)));
        }
    }
    drop(all);
    sort_by_key(&mut channels, |(number, _)| *number);
    channels.into_iter().map(|(_, channel)| channel).listed()
}
