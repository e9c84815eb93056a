//! What both kinds of channel are made of: the core's channel, the recorder of its calls, and the
//! values, which the core doesn't know.

mod access;
mod at_gate;
mod call_times;
mod chunk_size;
mod core_channel;
mod counts;
mod kept;
mod known;
mod last_calls;
mod last_drops;
mod locations;
mod locked;
mod machine;
mod made_handles;
mod numbers;
mod paused;
mod receivers;
mod recording;
mod registry;
mod seldom;
mod sharing_callers;
mod state;
mod typed;
mod waits;
mod who_waits;

pub(crate) use access::Access;
pub(crate) use core_channel::{Call, CoreChannel, DropStep, Send};
pub(crate) use counts::HandleCounts;
pub(crate) use kept::{KeptChannel, NotedChannel};
pub(crate) use known::{Known, KnownReceiver};
pub(crate) use last_calls::SendMade;
pub(crate) use locations::{CallSite, CallSites, call_site};
pub(crate) use locked::LockedChannel;
pub(crate) use receivers::{LiveReceiver, NO_SLOT, Slot};
pub(crate) use registry::{RegisteredChannel, all as all_channels};
pub(crate) use state::ChannelState;
pub(crate) use typed::TypedChannel;
pub(crate) use waits::ListedCall;
pub(crate) use who_waits::{WaitNow, WaitState};

use crate::channels::backend::{OpenFault, Recording, Spec};
use crate::channels::channel_lock::ChannelLock;
use crate::channels::in_place::arc_finished;
use crate::channels::lock::lock;
use crate::channels::recorder::{
    RecordedBy, Recorder, Shared, note_channel, say_that_none_replays,
};
use crate::channels::turns::{self, OrderedChannel};
use chunk_size::ChunkSize;
use registry::Registered;
use std::sync::Arc;

/// A channel with its recorder, if it has one. All calls are made through it.
pub struct RecordedChannel {
    pub(crate) recorder: RecordedBy,
    pub(crate) state: Arc<ChannelLock<ChannelState>>,
    // How many handles are alive, for who doesn't lock the channel.
    pub(crate) counts: HandleCounts,
    // Where its calls wait for their turns, in a replay or a run that is explored.
    pub(crate) ordered: Option<OrderedChannel>,
    // Among all channels of the process, until the last sender or receiver is dropped.
    _registered: Registered,
}

impl RecordedChannel {
    /// Opens a channel with this many values, and adds it to the current recorder. If there is
    /// none, or its run has no room for one more, the channel isn't recorded. Its first two handles
    /// are made here in the source.
    pub(crate) fn open(
        spec: Spec<u64>,
        value_count: u64,
        made_at: CallSite,
    ) -> Result<RecordedChannel, OpenFault> {
        let current = Recorder::current_or_begun(made_at);
        note_channel(made_at, current.is_some());
        if current.is_none() {
            say_that_none_replays(made_at);
        }
        let recorder = current.map(|current| current.0).filter(|it| !it.is_off());
        let (state, may_be_added) = begun(spec, value_count, made_at, recorder.as_deref())?;
        let ordered = recorder.as_ref().and_then(|recorder| {
            let explored = turns::explored().map(|run| run.turns.clone());
            let turns = explored.or_else(|| recorder.turns.clone())?;
            let number = turns.channel_by(lock(&state).made_by.as_ref()?)?;
            Some(OrderedChannel::new(turns, number))
        });
        let is_added = recorder.as_ref().is_some_and(|recorder| {
            let is_added = may_be_added && recorder.add(&state);
            if !is_added {
                lock(&state).end_recording();
            }
            is_added
        });
        Ok(RecordedChannel {
            _registered: Registered::add(&state, recorder.as_ref()),
            recorder: RecordedBy(recorder),
            state,
            counts: HandleCounts::opened(),
            ordered: ordered.filter(|_| is_added),
        })
    }
}

/// Opens a channel of the core: one whose last calls are kept by chunks of this size, or of which
/// all calls are recorded, or none.
fn opened(
    spec: Spec<u64>,
    is_recorded: bool,
    last: Option<ChunkSize>,
) -> Result<Recording, OpenFault> {
    match last {
        Some(size) => match Recording::open_flight(spec, size.now()) {
            Err(OpenFault::NoMemory) => {
                eprintln!(
                    "yovanelum: no memory for the last calls of a channel; it is recorded by none"
                );
                Recording::open_unrecorded(spec)
            }
            opened => opened,
        },
        None if is_recorded => Recording::open(spec),
        None => Recording::open_unrecorded(spec),
    }
}

/// Returns a new channel as its recorder has it, if it has one, and else as one that isn't
/// recorded. Also returns whether it is recorded: there is a recorder, and there was memory for
/// what that keeps.
fn begun(
    spec: Spec<u64>,
    value_count: u64,
    made_at: CallSite,
    recorder: Option<&Shared>,
) -> Result<(Arc<ChannelLock<ChannelState>>, bool), OpenFault> {
    let last = recorder.and_then(Shared::calls_per_channel);
    let last = last.map(ChunkSize::new);
    let core = opened(spec, recorder.is_some(), last)?;
    // It is finished where it stays, since it is large and would be moved.
    let made = ChannelLock::new(ChannelState::new(core, value_count, made_at));
    let mut is_recorded = false;
    let shared = arc_finished(made, |made| {
        let state = made.get_mut();
        state.receivers.add(1, made_at);
        is_recorded = state.is_recorded;
        if let Some(recorder) = recorder {
            if let Some(size) = last.filter(|_| is_recorded) {
                state.fly(size, recorder.times);
            }
            state.made_by = Some(recorder.maker());
            state.store_making(made_at);
            state.store_making(made_at);
        }
    });
    Ok((shared, is_recorded))
}

#[cfg(test)]
mod tests {
    use crate::channels::lock::lock;
    use crate::{Handle, Recorder, broadcast};

    #[test]
    fn a_channel_that_is_recorded_by_none_keeps_no_text() {
        let recorder = Recorder::new();
        let _entered = recorder.enter();
        let _recorded: Vec<_> = (0..64).map(|_| broadcast::channel::<u8>(1)).collect();
        let (tx, _rx) = broadcast::channel(2);
        recorder.show(&tx, u32::to_string);
        tx.send(5).unwrap();
        assert!(lock(&tx.recorded().channel.state).seldom().texts.is_empty());
    }
}
