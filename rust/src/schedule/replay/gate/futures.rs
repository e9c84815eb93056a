//! How futures wait before the gate: they are pending, and the polls of named ones are held back.

use super::super::clock::Time;
use super::super::divergence::CameInstead;
use super::super::state::{GateState, HeldPoll, Standing, Waiter};
use super::super::{ArrivingCall, Identity};
use super::{BETWEEN_LOOKS, Gate, TurnFor};
use crate::channels::backend::Actor;
use crate::channels::block_on::is_blocked_on_future;
use crate::channels::reentrant::thread_number;
use crate::channels::turns::Ticket;
use std::task::{Context, Poll};
use yovanelum_record::operation::CallSet;

/// How much longer than threads futures wait: they keep no thread away from the others.
const PATIENCE_OF_FUTURES: u32 = 5;

impl Gate {
    /// Polls a call that waits: it is pending until its turn, and waits before the gate by the
    /// ticket.
    pub(super) fn poll_turn(
        &self,
        coming: ArrivingCall,
        ticket: &mut Option<Ticket>,
        context: &Context<'_>,
    ) -> Poll<bool> {
        if self.entrance.is_over() {
            *ticket = None;
            return Poll::Ready(false);
        }
        let lane = self.plan.lane_of(&coming);
        // Wakers run code of the runtime where they are cloned and dropped, so nothing is locked
        // there.
        let (waker, user) = (context.waker().clone(), Identity::current());
        let task = user.may_be_any_task().then(|| waker.clone());
        let mut state = self.entrance.enter();
        let before = ticket.take().and_then(|left| state.waiters.remove(&left));
        // A task may move from one worker of its runtime to another.
        let is_moved = task
            .as_ref()
            .is_some_and(|task| state.is_last_task(lane, task));
        if is_moved {
            state.move_to(lane, &user);
        }
        state.see(&self.plan, lane, &coming, &user);
        // A runtime polls a future that has no name.
        state.has_unnamed_tasks |= task.is_some();
        let task = task.and_then(|task| state.see_task(&self.plan, lane, &coming, task));
        let standing = state.standing(&self.plan, lane, coming.word);
        if standing == Standing::Turn || state.is_over {
            let is_given = !state.is_over && self.give(&mut state, TurnFor::Call);
            self.stop_if_wanted(state, lane);
            drop((before, waker, task));
            return Poll::Ready(is_given);
        }
        let waiter = Waiter::new(coming, waker, before.as_ref(), state.clock.now());
        *ticket = Some(state.add_waiter(lane, waiter));
        self.entrance.keep_awake(state.is_helper_idle);
        drop(state);
        drop((before, task));
        Poll::Pending
    }

    /// Whether the poll of the future with this name is held back. Then its task is woken later.
    ///
    /// It is where another's turn has come and the next call of this future can't be pending: it
    /// would block its thread, which may be the one that polls the other. `within` is the name of
    /// the future that polls this one, if it is one with a name.
    pub(in crate::schedule::replay) fn holds(
        &self,
        name: &str,
        within: Option<&str>,
        context: &Context<'_>,
    ) -> bool {
        let Some(actor) = self
            .plan
            .actor_named(name)
            .filter(|_| !self.entrance.is_over())
        else {
            return false;
        };
        let within = within.and_then(|within| self.plan.actor_named(within));
        let (last, waker) = (context.waker().clone(), context.waker().clone());
        let is_of_runtime = !is_blocked_on_future();
        let mut state = self.entrance.enter();
        if state.is_over {
            drop(state);
            return false;
        }
        if is_of_runtime {
            state.see_runtime(thread_number());
        }
        let of = &mut state.actors[actor as usize];
        of.thread = thread_number();
        of.within = within.filter(|within| *within != actor);
        let before = of.waker.replace(last);
        let is_held = self.may_block_turn(&state, actor);
        let rest = if is_held {
            state.hold(actor, waker)
        } else {
            Some(waker)
        };
        self.entrance.keep_awake(state.is_helper_idle);
        drop(state);
        drop((before, rest));
        is_held
    }

    /// Whether the poll of the task with this name is held back, if it makes no call in the
    /// journal: one that comes behind those would block its thread, which may be the one that polls
    /// others.
    pub(in crate::schedule::replay) fn holds_unknown(
        &self,
        name: &str,
        context: &Context<'_>,
    ) -> bool {
        // Some tasks may have calls there that don't say whose they are.
        let may_be_known = self.plan.actor_named(name).is_some() || self.plan.has_unnamed_tasks();
        if self.entrance.is_over() || may_be_known || is_blocked_on_future() {
            return false;
        }
        let waker = context.waker().clone();
        let mut state = self.entrance.enter();
        let is_held = !state.is_over && state.holds_unknown(name, waker);
        self.entrance.keep_awake(state.is_helper_idle);
        drop(state);
        is_held
    }

    /// Whether this actor may block where it is polled now, so that its thread doesn't run the
    /// actor whose turn has come.
    fn may_block_turn(&self, state: &GateState, actor: u32) -> bool {
        let of = &state.actors[actor as usize];
        let Some(turn) = self.plan.steps.get(state.position) else {
            return false;
        };
        if of.passes_at == Some(state.position) {
            return false;
        }
        match self.plan.steps.get(of.front as usize) {
            // The turn is that of its drop, which no poll makes.
            Some(next) if next.is_cancelled && turn.call.actor == actor => true,
            _ if state.is_within(turn.call.actor, actor) => false,
            Some(next) => !next.call.word.is(CallSet::MAY_WAIT),
            None => self.plan.outlives[actor as usize],
        }
    }

    /// Diverges from the journal if a future has waited too long, and lets polls go that were held
    /// back long enough, or where all threads sleep. Where a thread is blocked and nothing was
    /// called for a while, all futures are polled.
    pub(in crate::schedule::replay) fn look_after_futures(
        &self,
        state: &mut GateState,
        is_at_rest: bool,
    ) {
        let turned_at = state.turned_at;
        let now = state.clock.now();
        let idle = |since: Time| now.since(since.max(turned_at));
        let limit = self.patience * PATIENCE_OF_FUTURES;
        let mut waiters = state.waiters.values().into_iter();
        let late = waiters.find(|waiter| idle(waiter.since) >= limit);
        if let Some(coming) = late.map(|waiter| waiter.coming) {
            return self.diverge(state, CameInstead::Nothing(limit), Some(&coming));
        }
        for actor in 0..Actor::MOST {
            let of = &mut state.actors[actor];
            let is_long = |held: &HeldPoll| is_at_rest || idle(held.since) >= self.hold;
            if of.held.iter().any(is_long) {
                of.passes_at = Some(state.position);
                state.release(actor as u32);
            }
        }
        state.release_unknown(|held| is_at_rest || idle(held.since) >= self.hold);
        // The blocked thread may be the worker that drives its runtime's timers, and the turn that
        // of a task that sleeps. When a task is woken, another worker gets up, finds nobody at the
        // timers, and drives them.
        if !state.blocked.is_empty() && now.since(turned_at) >= BETWEEN_LOOKS {
            state.wake_all();
        }
    }
}
