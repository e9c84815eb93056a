//! Those who stand before the gate, and what they come with.

use super::chooser::Candidate;
use super::fairness::PassedOver;
use super::schedule::What;
use super::spinning::{CallInSource, LookedBy};
use super::threads::ThreadId;
use crate::channels::turns::ArrivingCall;
use crate::channels::whereabouts::PlaceNumber;
use std::sync::{Arc, Condvar};
use std::task::Waker;

/// What one comes to the gate with.
pub(super) enum Arrival {
    /// The poll of a task, which is held without its thread.
    Poll,
    /// A call on a recorded channel.
    Call(ArrivingCall),
    /// A call of a type of tokio's own.
    Point(ArrivingPoint),
}

/// A call of a type of tokio's own, as `Mutex::lock`, and where it is made.
#[derive(Clone, Copy, PartialEq, Eq)]
pub(super) struct ArrivingPoint {
    pub(super) called: &'static str,
    pub(super) at: Option<PlaceNumber>,
}

impl ArrivingPoint {
    /// Whether it changes nothing, or may change nothing.
    pub(super) fn is_look(self) -> bool {
        let method = self.called.rsplit("::").next().unwrap_or_default();
        match method {
            "available_permits" | "capacity" | "len" => true,
            "try_send" => false,
            _ => method.starts_with("is_") || method.starts_with("try_"),
        }
    }
}

/// One who stands before the gate.
pub(super) struct Stand {
    pub(super) who: Arc<str>,
    pub(super) arrival: Arrival,
    pub(super) thread: ThreadId,
    pub(super) number: u64,
    pub(super) is_chosen: bool,
    /// What its thread waits for, where a call blocks it.
    pub(super) own: Arc<Condvar>,
    /// What wakes its task. A task without one wakes itself at once, so that its runtime isn't
    /// idle.
    pub(super) waker: Option<Waker>,
    /// How often it has come round since something else happened on its thread.
    pub(super) rounds: usize,
    pub(super) spins: bool,
    pub(super) passed_over: PassedOver,
    /// Whether it is polled by what its thread blocks on, as a task of a `LocalSet`.
    pub(super) is_within: bool,
}

impl Stand {
    pub(super) fn is_poll(&self) -> bool {
        matches!(self.arrival, Arrival::Poll)
    }

    /// Whether its thread is blocked meanwhile.
    pub(super) fn is_blocking(&self) -> bool {
        !self.is_poll()
    }

    /// Returns where the call is made in the source, if that is told.
    pub(super) fn called_at(&self) -> Option<(String, u32)> {
        match &self.arrival {
            Arrival::Call(call) => call.called_at.map(|at| (at.file().to_string(), at.line())),
            Arrival::Poll | Arrival::Point(_) => None,
        }
    }

    /// Returns the place of a call of tokio's own, to be named when a run fails.
    pub(super) fn place(&self) -> Option<PlaceNumber> {
        match &self.arrival {
            Arrival::Point(point) => point.at,
            Arrival::Poll | Arrival::Call(_) => None,
        }
    }

    /// Returns its call, by which it may look at what doesn't change.
    pub(super) fn look(&self) -> Option<LookedBy> {
        match &self.arrival {
            Arrival::Poll => None,
            Arrival::Call(call) => Some(LookedBy::Call(CallInSource::of(call))),
            Arrival::Point(point) => Some(LookedBy::Point(*point)),
        }
    }

    pub(super) fn candidate(&self) -> Candidate {
        let what = match &self.arrival {
            Arrival::Poll => What::Poll,
            Arrival::Call(call) => What::Call {
                word: call.word.text().to_string(),
                channel: call.channel,
                handle: call.handle,
            },
            Arrival::Point(point) => What::Point {
                called: point.called.into(),
            },
        };
        Candidate {
            who: self.who.clone(),
            what,
            number: self.number,
            passed_over: self.passed_over,
        }
    }
}
