//! How a journal orders the calls on channels.

use super::super::Identity;
use super::super::divergence::CameInstead;
use super::super::outcome;
use super::{Gate, TurnFor};
use crate::channels::standard_error::say;
use crate::channels::turns::{ArrivingCall, TestEnd, Ticket, Turns};
use std::mem;
use std::task::{Context, Poll};
use yovanelum_record::sidecar::Maker;

impl Turns for Gate {
    fn follows_journal(&self) -> bool {
        true
    }

    fn see_maker(&self, name: Option<&str>) {
        self.entrance.enter().see_maker(name, Identity::current());
    }

    /// Returns the channel of the journal that this caller has made after as many others.
    fn channel_by(&self, maker: &Maker) -> Option<u32> {
        self.plan.channel_by(maker)
    }

    #[inline]
    fn pass(&self, coming: ArrivingCall, _has_unread: &dyn Fn() -> bool) -> bool {
        !self.entrance.is_over() && self.wait(coming, TurnFor::Call)
    }

    fn pass_to_modify(&self, coming: ArrivingCall) {
        if !self.entrance.is_over() {
            self.wait(coming, TurnFor::Modify);
        }
    }

    fn poll(
        &self,
        coming: ArrivingCall,
        _has_unread: &dyn Fn() -> bool,
        ticket: &mut Option<Ticket>,
        context: &Context<'_>,
    ) -> Poll<bool> {
        self.poll_turn(coming, ticket, context)
    }

    fn note_question(&self, coming: ArrivingCall) {
        if !self.entrance.is_over() {
            self.entrance.enter().actors[coming.actor.number() as usize].asked = Some(coming);
        }
    }

    fn leave(&self, ticket: Ticket) {
        let left = self.entrance.enter().waiters.remove(&ticket);
        drop(left);
    }

    fn made(&self, text: Option<&str>) {
        let mut state = self.entrance.enter();
        if state.is_over {
            return;
        }
        if let Some(text) = text.filter(|_| state.other_text.is_none()) {
            state.other_text = outcome::other_text(&self.plan, state.position, text);
        }
        let wakes = state.advance(&self.plan);
        if self.plan.steps.len() == state.position {
            return self.end(&mut state);
        }
        drop(state);
        self.notify(&wakes);
    }

    fn give_back(&self) {
        let mut state = self.entrance.enter();
        state.is_given = false;
        let wakes = state.wakes(&self.plan);
        drop(state);
        self.notify(&wakes);
    }

    fn would_wait(&self) {
        let mut state = self.entrance.enter();
        if !state.is_over {
            self.diverge(&mut state, CameInstead::ToWait, None);
        }
    }

    /// Ends the replay, and says on standard error how it went. It says so once, and outside of a
    /// test not to who has asked.
    fn conclude(&self, end: TestEnd<'_>) {
        self.wait_for_the_rest();
        let mut state = self.entrance.enter();
        self.end(&mut state);
        let is_asked = state.is_asked && matches!(end, TestEnd::Unknown);
        let is_told = mem::replace(&mut state.is_told, true) || is_asked;
        let replayed = outcome::replayed(&self.plan, &state);
        drop(state);
        if !is_told {
            let name = self.path.file_name().unwrap_or_default().to_string_lossy();
            say(&format!("replay of {name}: {}", replayed.at_end(end)));
        }
    }
}
