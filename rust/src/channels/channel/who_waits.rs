//! Who waits: what the proved list says of each call that began to wait and has not ended. The list
//! of details (`waits.rs`) has them all from their first poll to their end, and doesn't know.

use super::ChannelState;
use super::waits::ListedCall;
use crate::channels::wait::{Awaited, Wait, WaitFor, WaitTicket};
use yovanelum_record::listed::IntoList;

/// What a call does that began to wait and has not ended.
#[derive(Clone, Copy, Debug, PartialEq, Eq)]
pub(crate) enum WaitState {
    /// It waits: the proved list has its ticket, so it would wait in the channel as it is. Its
    /// waker may have yet to be cloned.
    Waits,
    /// It was woken, and has not gone on since: a call has taken its ticket off the proved list,
    /// and nobody has polled it, or its task gave way when it was polled. A future that was
    /// forgotten may stay so.
    Woken,
    /// It is held before the gate of a replay, or of a run that is explored, until its turn comes.
    /// It has no ticket yet, or no longer one.
    Held,
    /// It blocks its thread for the lock of a watch's value. That is no wait for the channel, so it
    /// never has a ticket.
    Blocks,
}

/// A call that began to wait and has not ended, and what it does now.
#[derive(Clone, Copy)]
pub(crate) struct WaitNow {
    pub(crate) wait: Wait,
    pub(crate) state: WaitState,
}

impl WaitNow {
    /// Whether it was woken and has not gone on since, if the proved list says that or that it
    /// waits. Of other calls the list says nothing.
    pub(crate) fn is_woken(&self) -> Option<bool> {
        match self.state {
            WaitState::Waits => Some(false),
            WaitState::Woken => Some(true),
            WaitState::Held | WaitState::Blocks => None,
        }
    }
}

impl ChannelState {
    /// Returns the calls that began to wait and have not ended, in the order in which they began,
    /// and what each does now. It is asked for a report or a snapshot: a call that waits and one
    /// that is woken note nothing for it.
    pub(crate) fn who_waits(&self) -> Vec<WaitNow> {
        let calls = self.waits.in_order();
        let calls = calls.iter().map(|(ticket, wait)| WaitNow {
            wait: **wait,
            state: self.state_of(wait.awaited, *ticket),
        });
        calls.listed()
    }

    fn state_of(&self, awaited: Awaited, ticket: Option<WaitTicket>) -> WaitState {
        match (awaited.wait_for(), ticket) {
            (None, _) => WaitState::Blocks,
            (Some(_), None) => WaitState::Held,
            (Some(wait_for), Some(ticket)) if self.is_listed(wait_for, ticket) => WaitState::Waits,
            (Some(_), Some(_)) => WaitState::Woken,
        }
    }

    /// Whether the call with this ticket waits, as the proved list says.
    fn is_listed(&self, wait_for: WaitFor, ticket: WaitTicket) -> bool {
        self.waiting.waker(wait_for, ticket).is_some()
    }

    /// Notes that a call which began to wait was polled again, and is held before a gate. If it was
    /// woken before, that was this poll, and it is told as one that is held.
    pub(crate) fn note_held(&mut self, wait_for: WaitFor, listed: ListedCall) {
        let ticket = self.waits.ticket(listed);
        if ticket.is_some_and(|ticket| !self.is_listed(wait_for, ticket)) {
            self.waits.forget_ticket(listed);
        }
    }
}

#[cfg(test)]
mod tests {
    use super::WaitState::{Blocks, Held, Waits, Woken};
    use super::*;
    use crate::channels::backend::Actor;
    use crate::channels::channel::NO_SLOT;
    use crate::channels::channel_lock::ChannelGuard;
    use crate::channels::handle::Kind;
    use crate::channels::lock::lock;
    use crate::channels::wait::Method;
    use crate::{Handle, broadcast};

    fn wait(awaited: Awaited) -> Wait {
        Wait {
            actor: Actor::FIRST,
            handle: 1,
            slot: NO_SLOT,
            kind: Kind::Receiver,
            awaited,
            method: Method::called("recv"),
            since: 0,
            began: None,
        }
    }

    fn state(sender: &broadcast::Sender<u32>) -> ChannelGuard<'_, ChannelState> {
        lock(&sender.recorded().channel.state)
    }

    fn states(sender: &broadcast::Sender<u32>) -> Vec<WaitState> {
        let calls = state(sender).who_waits();
        calls.iter().map(|call| call.state).collect()
    }

    #[test]
    fn a_call_that_began_is_in_one_of_four_states() {
        let (sender, receiver) = broadcast::channel(4);
        let calls = [Awaited::Value, Awaited::Value, Awaited::NoReceiver];
        let [first, second, closed] = calls.map(|it| state(&sender).waits.add(wait(it)));
        state(&sender).waits.add(wait(Awaited::Lock(None)));
        // None of them has a ticket yet.
        assert_eq!(states(&sender), [Held, Held, Held, Blocks]);
        for (call, wait_for) in [
            (first, WaitFor::Value),
            (second, WaitFor::Value),
            (closed, WaitFor::NoReceiver),
        ] {
            assert!(state(&sender).list_waker(wait_for, call, None).is_none());
        }
        assert_eq!(states(&sender), [Waits, Waits, Waits, Blocks]);
        // A poll that a gate holds back leaves it listed.
        state(&sender).note_held(WaitFor::Value, first);
        assert_eq!(states(&sender), [Waits, Waits, Waits, Blocks]);
        // One send wakes both that wait for a value, of which the first is polled and held back.
        sender.send(7).unwrap();
        assert_eq!(states(&sender), [Woken, Woken, Waits, Blocks]);
        state(&sender).note_held(WaitFor::Value, first);
        assert_eq!(states(&sender), [Held, Woken, Waits, Blocks]);
        // Polled again, it has to wait again.
        assert!(
            state(&sender)
                .list_waker(WaitFor::Value, first, None)
                .is_none()
        );
        assert_eq!(states(&sender), [Waits, Woken, Waits, Blocks]);
        drop(receiver);
        assert_eq!(states(&sender), [Waits, Woken, Woken, Blocks]);
        assert_eq!(
            state(&sender)
                .who_waits()
                .iter()
                .map(|it| it.is_woken())
                .collect::<Vec<_>>(),
            [Some(false), Some(true), Some(true), None]
        );
    }
}
