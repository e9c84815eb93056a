//! Callers that only look, again and again, while nothing changes. They are set aside until a
//! channel of theirs does.

use super::stand::ArrivingPoint;
use crate::channels::channel::CallSite;
use crate::channels::turns::ArrivingCall;
use std::ptr;
use std::sync::Arc;
use yovanelum_record::by_text::TextMap;
use yovanelum_record::numbered::NumberMap;
use yovanelum_record::operation::{CallSet, Operation};

/// How often a caller makes the same look before it is set aside.
const SAME_LOOKS: u32 = 2;

/// The same of calls of tokio's own, of which nobody says what they return.
const SAME_POINTS: u32 = 8;

/// How many looks of a caller are known apart.
const LOOKS_KEPT: usize = 16;

/// What callers have looked at since they did anything else.
#[derive(Default)]
pub(super) struct SpinDetector {
    /// How often each channel was changed.
    versions: NumberMap<u32, u64>,
    /// How often anything was changed that tokio's own calls look at.
    version_of_points: u64,
    by_caller: TextMap<Vec<RepeatedLook>>,
}

/// A look: which call it is, and what it has seen.
struct RepeatedLook {
    look: LookedBy,
    version: u64,
    times: u32,
}

/// What a caller looks by, at one place in the source.
#[derive(Clone, Copy, PartialEq, Eq)]
pub(super) enum LookedBy {
    Call(CallInSource),
    Point(ArrivingPoint),
}

impl LookedBy {
    /// How often it is made before its caller is set aside.
    fn most(self) -> u32 {
        match self {
            LookedBy::Call(_) => SAME_LOOKS,
            LookedBy::Point(_) => SAME_POINTS,
        }
    }
}

/// A call that is made at one place in the source, by one handle.
#[derive(Clone, Copy, PartialEq, Eq)]
pub(super) struct CallInSource {
    channel: u32,
    handle: u32,
    word: Operation,
    /// The address of the location.
    at: usize,
}

impl CallInSource {
    pub(super) fn of(coming: &ArrivingCall) -> CallInSource {
        let address = |at: CallSite| at.map_or(0, |at| ptr::from_ref(at).addr());
        CallInSource {
            channel: coming.channel,
            handle: coming.handle,
            word: coming.word,
            at: address(coming.called_at),
        }
    }

    /// What the call is to others. `has_unread` says whether its receiver has anything to receive.
    fn effect(self, has_unread: bool) -> EffectOnOthers {
        let is_vain = !has_unread;
        match self.word {
            word if word.is(CallSet::ASKS) => EffectOnOthers::Look,
            Operation::TryRecv if is_vain => EffectOnOthers::Look,
            // A receive that gets a value takes it.
            word if word.is(CallSet::MAY_WAIT) && (is_vain || !word.is(CallSet::TAKES)) => {
                EffectOnOthers::Waits
            }
            _ => EffectOnOthers::Changes,
        }
    }
}

/// What a call is to others.
#[derive(Clone, Copy, PartialEq, Eq)]
enum EffectOnOthers {
    /// It changes nothing, and would return the same again.
    Look,
    /// It waits, or changes nothing but what its own receiver has seen.
    Waits,
    Changes,
}

impl SpinDetector {
    /// Notes that a caller makes a call.
    pub(super) fn goes(&mut self, who: &Arc<str>, call: CallInSource, has_unread: bool) {
        let effect = call.effect(has_unread);
        if effect == EffectOnOthers::Changes {
            *self.versions.get_or_default(call.channel) += 1;
        }
        self.notes(who, LookedBy::Call(call), effect);
    }

    /// Notes that a caller makes a call of tokio's own.
    pub(super) fn passes(&mut self, who: &Arc<str>, point: ArrivingPoint) {
        let effect = if point.is_look() {
            EffectOnOthers::Look
        } else {
            self.version_of_points += 1;
            EffectOnOthers::Changes
        };
        self.notes(who, LookedBy::Point(point), effect);
    }

    fn notes(&mut self, who: &Arc<str>, look: LookedBy, effect: EffectOnOthers) {
        if effect != EffectOnOthers::Look {
            self.by_caller.remove(who);
            return;
        }
        let version = self.version(look);
        let looks = self.by_caller.get_or_default(who);
        let found = looks.iter().position(|other| other.look == look);
        match found {
            Some(index) if looks[index].version == version => looks[index].times += 1,
            Some(index) => (looks[index].version, looks[index].times) = (version, 1),
            None if looks.len() < LOOKS_KEPT => looks.push(RepeatedLook {
                look,
                version,
                times: 1,
            }),
            // It looks at so much that it isn't one who waits for something.
            None => looks.clear(),
        }
    }

    fn version(&self, look: LookedBy) -> u64 {
        match look {
            LookedBy::Call(call) => self
                .versions
                .get(&call.channel)
                .copied()
                .unwrap_or_default(),
            LookedBy::Point(_) => self.version_of_points,
        }
    }

    /// Whether a caller looks again and again, at what hasn't changed since. If it has come with a
    /// call, this is that call.
    pub(super) fn is_idle(&self, who: &Arc<str>, call: Option<LookedBy>) -> bool {
        let Some(looks) = self.by_caller.get(who) else {
            return false;
        };
        let mut is_repeated = false;
        for RepeatedLook {
            look,
            version,
            times,
        } in looks
        {
            if *version != self.version(*look) {
                return false;
            }
            is_repeated |= *times >= look.most() && call.is_none_or(|call| call == *look);
        }
        is_repeated
    }
}

#[cfg(test)]
mod tests {
    use super::*;

    fn call(channel: u32, word: Operation) -> CallInSource {
        CallInSource {
            channel,
            handle: 1,
            word,
            at: 8,
        }
    }

    #[test]
    fn a_caller_that_looks_in_vain_is_idle_until_a_channel_of_its_changes() {
        let (poller, sender) = ("poller".into(), "sender".into());
        let (try_recv, borrow) = (call(0, Operation::TryRecv), call(1, Operation::Borrow));
        let mut looks = SpinDetector::default();
        for times in 0..2 {
            assert!(
                !looks.is_idle(&poller, Some(LookedBy::Call(try_recv))),
                "{times}"
            );
            looks.goes(&poller, try_recv, false);
            looks.goes(&poller, borrow, false);
        }
        assert!(
            looks.is_idle(&poller, Some(LookedBy::Call(try_recv))) && looks.is_idle(&poller, None)
        );
        // Another call may find something.
        assert!(!looks.is_idle(
            &poller,
            Some(LookedBy::Call(call(1, Operation::HasChanged)))
        ));
        looks.goes(&sender, call(2, Operation::Send), false);
        assert!(looks.is_idle(&poller, Some(LookedBy::Call(try_recv))));
        looks.goes(&sender, call(1, Operation::Send), false);
        assert!(!looks.is_idle(&poller, Some(LookedBy::Call(try_recv))));
    }

    #[test]
    fn a_receive_that_finds_a_value_is_no_look() {
        let poller = "poller".into();
        let try_recv = call(0, Operation::TryRecv);
        let mut looks = SpinDetector::default();
        for _ in 0..5 {
            looks.goes(&poller, try_recv, true);
            assert!(!looks.is_idle(&poller, Some(LookedBy::Call(try_recv))));
        }
    }

    #[test]
    fn a_caller_that_tries_in_vain_is_idle_until_another_call_of_tokio_s_own() {
        let (poller, holder) = ("poller".into(), "holder".into());
        let point = |called| ArrivingPoint { called, at: None };
        let try_lock = point("Mutex::try_lock");
        let mut looks = SpinDetector::default();
        for times in 0..8 {
            assert!(!looks.is_idle(&poller, None), "{times}");
            looks.passes(&poller, try_lock);
        }
        assert!(looks.is_idle(&poller, Some(LookedBy::Point(try_lock))));
        assert!(!looks.is_idle(&poller, Some(LookedBy::Point(point("Mutex::lock")))));
        looks.passes(&holder, point("Mutex::try_lock"));
        assert!(looks.is_idle(&poller, None));
        looks.passes(&holder, point("MutexGuard::drop"));
        assert!(!looks.is_idle(&poller, None));
    }

    #[test]
    fn a_caller_that_sends_again_and_again_is_not_idle() {
        let sender = "sender".into();
        let mut looks = SpinDetector::default();
        for _ in 0..20 {
            looks.passes(
                &sender,
                ArrivingPoint {
                    called: "Sender::try_send",
                    at: None,
                },
            );
            assert!(!looks.is_idle(&sender, None));
        }
    }
}
