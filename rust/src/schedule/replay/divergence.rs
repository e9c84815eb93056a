//! Where a replay diverges from its journal, and why, in words.

use super::ArrivingCall;
use super::outcome::{call_of, push_actor, push_channel, step_in_words};
use super::plan::Plan;
use super::state::GateState;
use crate::channels::backend::Actor;
use crate::channels::channel::CallSite;
use std::fmt::{self, Write as _};
use std::time::Duration;
use yovanelum_record::operation::CallSet;

/// What has come in place of the call that was expected.
#[derive(Clone, Copy)]
pub(super) enum CameInstead {
    /// Another call.
    Other,
    /// Nothing for so long, while this call waited.
    Nothing(Duration),
    /// The call, but it had to wait.
    ToWait,
}

/// Where a replay diverges, and why.
#[derive(Clone, Debug, PartialEq, Eq)]
pub(crate) struct Divergence {
    /// As `diverges at call 2 of 6: expected .., came ..`.
    pub(crate) text: String,
    // What to write where tasks have no names of their own, or nothing.
    advice: &'static str,
}

impl fmt::Display for Divergence {
    fn fmt(&self, f: &mut fmt::Formatter<'_>) -> fmt::Result {
        write!(f, "{}{}", self.text, self.advice)
    }
}

/// Returns where a replay diverges, and why. What came is of this call.
pub(super) fn found(
    plan: &Plan,
    state: &GateState,
    came: CameInstead,
    coming: Option<&ArrivingCall>,
) -> Divergence {
    let mut words = format!("diverges at {}: expected ", call_of(plan, state.position));
    if let Some(step) = plan.steps.get(state.position) {
        words.push_str(&step_in_words(plan, step));
    }
    let call = coming.map(|coming| call_in_words(plan, state, coming));
    let call = call.unwrap_or_default();
    let _ = match came {
        CameInstead::Other => write!(words, ", came {call}"),
        CameInstead::Nothing(limit) => write!(
            words,
            ", came nothing for {} ms, while {call} waited",
            limit.as_millis()
        ),
        CameInstead::ToWait => write!(words, ", came the same call, which had to wait"),
    };
    Divergence {
        text: words + &of_questions(plan, state, coming),
        advice: of_tasks(plan, state),
    }
}

/// Says that tasks have no names, or those of their places alone, if some have, and what to write.
pub(super) fn of_tasks(plan: &Plan, state: &GateState) -> &'static str {
    let of_unnamed = of_unnamed_tasks(plan, state);
    if of_unnamed.is_empty() && plan.spawned_tasks() > 0 {
        "; tasks that nobody named are told apart by where they are spawned, and in which order: if that is \
         another one now, write `tokio::spawn(yovanelum::named(\"clerk\", ..))` for each, and record again"
    } else {
        of_unnamed
    }
}

fn of_unnamed_tasks(plan: &Plan, state: &GateState) -> &'static str {
    if state.has_unnamed_tasks || plan.has_unnamed_tasks() {
        "; tasks without a name make calls, and a replay can't hold back their polls: write \
         `tokio::spawn(yovanelum::named(\"clerk\", ..))` for each, and \
         `yovanelum::named(\"test\", async { .. }).await` for the test's body, and record again"
    } else {
        ""
    }
}

/// Returns a call that has come. One of a caller whose name the journal doesn't have is told by its
/// place, or else by that of the caller's last call.
fn call_in_words(plan: &Plan, state: &GateState, coming: &ArrivingCall) -> String {
    let mut words = format!("`{} {}` on ", coming.word.text(), coming.handle);
    push_channel(&mut words, plan, coming.channel);
    push_actor(&mut words, plan, coming.actor);
    let is_known = plan.has_actor(coming.actor);
    if !is_known {
        words.push_str(" by a caller that the journal doesn't have");
    }
    let last = state.actors[coming.actor.number() as usize].called_at;
    match coming.called_at {
        None if !is_known => push_place(&mut words, ", whose last call was", last),
        at => push_place(&mut words, "", at),
    }
    words
}

fn push_place(words: &mut String, before: &str, at: CallSite) {
    if let Some(at) = at {
        let _ = write!(words, "{before} at {}:{}", at.file(), at.line());
    }
}

/// Says what questions without an entry have to do with it: what they return is in no order, and
/// the caller may have gone by it.
fn of_questions(plan: &Plan, state: &GateState, coming: Option<&ArrivingCall>) -> String {
    let expected = plan.steps.get(state.position);
    let expected = expected.map(|step| Actor::of(step.call.actor as usize));
    let expected = expected.filter(|actor| plan.is_named(*actor));
    let came = coming.map(|coming| coming.actor);
    let mut callers = expected.into_iter().chain(came);
    let asked = callers.find_map(|actor| state.actors[actor.number() as usize].asked);
    if let Some(asked) = asked {
        let asked = call_in_words(plan, state, &asked);
        return format!(
            "; before that came {asked}, and after `quiet_questions()` no replay orders what it returns"
        );
    }
    let is_question = coming.is_some_and(|coming| coming.word.is(CallSet::ASKS));
    if is_question && plan.names.matching.is_quiet {
        "; the journal lacks the questions after `quiet_questions()`".to_string()
    } else {
        String::new()
    }
}
