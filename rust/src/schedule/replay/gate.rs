//! The gate, before which each call waits for its turn: how it opens and ends, and how threads
//! wait.

mod futures;
mod turns;

use super::divergence::{self, CameInstead, Divergence};
use super::outcome::{self, Replayed};
use super::plan::Plan;
use super::state::{GateState, Standing, Wakes};
use super::{ArrivingCall, Identity, stop};
use crate::channels::backend::Actor;
use crate::channels::reentrant::thread_number;
use crate::channels::standard_error::say;
use crate::schedule::entrance::Entrance;
use crate::schedule::explore::this_thread;
use std::path::{Path, PathBuf};
use std::sync::{Condvar, MutexGuard, PoisonError};
use std::thread;
use std::time::Duration;
use yovanelum_record::listed::IntoList;
use yovanelum_record::sidecar::Maker;

/// How long a wait goes on without progress where it may be for what the wait itself keeps away.
pub(super) const SHORT: Duration = Duration::from_millis(250);

/// How long futures wait before they are looked after again.
pub(super) const BETWEEN_LOOKS: Duration = SHORT.checked_div(16).unwrap();

/// The gate of a replay. A call passes it before it acquires a lock, and gets a permit when its
/// turn comes.
///
/// Nothing panics in it, and nobody waits in it forever: when no call was made for a while, or one
/// comes that isn't in the journal's order, the replay diverges from the journal, and all calls
/// pass.
pub(crate) struct Gate {
    /// The journal.
    path: PathBuf,
    /// The number of the recorder.
    pub(super) recorder: u64,
    pub(super) plan: Plan,
    pub(super) entrance: Entrance<GateState>,
    // Of the threads that wait for a lane, and for an actor.
    turns_of_lanes: Vec<Condvar>,
    turns_of_actors: Vec<Condvar>,
    // Of the threads whose call the journal doesn't have.
    end: Condvar,
    patience: Duration,
    /// How long the poll of a future is held back without progress.
    pub(super) hold: Duration,
}

/// How a thread waits.
#[derive(Clone, Copy, PartialEq, Eq)]
enum TurnFor {
    /// For the turn of its call.
    Call,
    /// For the turn of what a closure that changes a watch does.
    Modify,
}

impl Gate {
    /// Creates the gate of a plan, of the journal at this path, for the recorder with this number.
    /// Threads wait this long without progress.
    pub(super) fn new(path: &Path, recorder: u64, plan: Plan, patience: Duration) -> Gate {
        let state = GateState::new(&plan);
        let is_over = state.is_over;
        let condvars = |count: usize| (0..count).map(|_| Condvar::new()).listed();
        Gate {
            path: path.to_path_buf(),
            recorder,
            turns_of_lanes: condvars(plan.first_of_lane.len()),
            turns_of_actors: condvars(Actor::MOST),
            end: Condvar::new(),
            entrance: Entrance::new(state, is_over),
            plan,
            patience,
            hold: SHORT,
        }
    }

    /// Lets a debugger stop before the call with this index.
    pub(super) fn stopping_at(self, index: Option<usize>) -> Gate {
        self.entrance.lock().stop_at = index;
        self
    }

    /// Returns the path of the journal.
    pub(crate) fn path(&self) -> &Path {
        &self.path
    }

    /// Returns the names of the journal's actors by number, `None` for those that nobody named.
    pub(crate) fn actors(&self) -> Vec<Option<String>> {
        self.plan.actors()
    }

    fn wait(&self, coming: ArrivingCall, wait: TurnFor) -> bool {
        let lane = self.plan.lane_of(&coming);
        let user = Identity::current();
        let mut state = self.entrance.enter();
        state.see(&self.plan, lane, &coming, &user);
        let standing = self.standing(&state, lane, &coming, wait);
        let (mut state, is_turn) = if standing == Standing::Turn && !state.is_over {
            (state, true)
        } else {
            self.block(state, lane, &coming, wait)
        };
        if !is_turn {
            return false;
        }
        let is_given = self.give(&mut state, wait);
        self.stop_if_wanted(state, lane);
        is_given
    }

    /// Stops if a debugger is to see this call, the next one of its lane. Nothing is locked then,
    /// and others still wait for their turn.
    #[inline]
    fn stop_if_wanted(&self, mut state: MutexGuard<'_, GateState>, lane: Option<u32>) {
        if state.stop_at == Some(state.position) && state.is_front(lane) {
            let position = state.position;
            state.stop_at = None;
            drop(state);
            stop::stop_before(&self.plan, position);
        }
    }

    fn standing(
        &self,
        state: &GateState,
        lane: Option<u32>,
        coming: &ArrivingCall,
        wait: TurnFor,
    ) -> Standing {
        match wait {
            TurnFor::Call => state.standing(&self.plan, lane, coming.word),
            TurnFor::Modify => state.standing_to_modify(&self.plan, lane),
        }
    }

    /// Gives the turn to a call, and returns whether it did. The closure that changes a watch isn't
    /// given it: its own calls are.
    fn give(&self, state: &mut GateState, wait: TurnFor) -> bool {
        let is_given = wait == TurnFor::Call;
        state.is_given |= is_given;
        is_given
    }

    /// Blocks until it is the call's turn, and returns `true`, or until all calls pass.
    fn block<'a>(
        &'a self,
        mut state: MutexGuard<'a, GateState>,
        lane: Option<u32>,
        coming: &ArrivingCall,
        wait: TurnFor,
    ) -> (MutexGuard<'a, GateState>, bool) {
        let (began, thread) = (state.clock.now(), thread_number());
        while !state.is_over {
            let standing = self.standing(&state, lane, coming, wait);
            match standing {
                Standing::Turn => return (state, true),
                Standing::Other(_) => {
                    self.diverge(&mut state, CameInstead::Other, Some(coming));
                    break;
                }
                Standing::Later | Standing::Unknown => (),
            }
            let (limit, is_own) = self.limit(&state, coming, thread);
            let since = began.max(state.turned_at);
            if state.clock.since(since) >= limit {
                let came = if is_own {
                    CameInstead::Other
                } else {
                    CameInstead::Nothing(limit)
                };
                self.diverge(&mut state, came, Some(coming));
                break;
            }
            state = self.sleep(state, lane.filter(|_| standing == Standing::Later), wait);
        }
        (state, false)
    }

    /// Waits for a change on a condition that the turn of this lane notifies, for a short time.
    fn sleep<'a>(
        &'a self,
        mut state: MutexGuard<'a, GateState>,
        lane: Option<u32>,
        wait: TurnFor,
    ) -> MutexGuard<'a, GateState> {
        let actor = state.actor_of(&self.plan, lane);
        let condition = match (lane, wait) {
            (None, _) => &self.end,
            (Some(lane), TurnFor::Call) => {
                state.lanes[lane as usize].blocked += 1;
                &self.turns_of_lanes[lane as usize]
            }
            (Some(_), TurnFor::Modify) => {
                state.actors[actor].blocked += 1;
                &self.turns_of_actors[actor]
            }
        };
        state.blocked.push(this_thread());
        self.entrance.keep_awake(state.is_helper_idle);
        let woken = condition.wait_timeout(state, SHORT);
        let (mut state, _) = woken.unwrap_or_else(PoisonError::into_inner);
        state.unblock(this_thread());
        match (lane, wait) {
            (None, _) => (),
            (Some(lane), TurnFor::Call) => state.lanes[lane as usize].blocked -= 1,
            (Some(_), TurnFor::Modify) => state.actors[actor].blocked -= 1,
        }
        state
    }

    /// Returns how long a thread waits without progress, and whether it is its own actor's turn, by
    /// another call. The time is short where the wait may keep the turn away: it is that of its own
    /// actor or thread, or the thread unwinds a panic.
    fn limit(&self, state: &GateState, coming: &ArrivingCall, thread: usize) -> (Duration, bool) {
        let Some(step) = self.plan.steps.get(state.position) else {
            return (SHORT, false);
        };
        let is_own = self.plan.is_named(coming.actor) && step.call.actor == coming.actor.number();
        let is_here = state.actors[step.call.actor as usize].thread == thread;
        let limit = if is_own || is_here || thread::panicking() {
            SHORT.min(self.patience)
        } else {
            self.patience
        };
        (limit, is_own)
    }

    fn notify(&self, wakes: &Wakes) {
        if let Some(lane) = wakes.lane {
            self.turns_of_lanes[lane as usize].notify_all();
        }
        if let Some(actor) = wakes.actor {
            self.turns_of_actors[actor as usize].notify_all();
        }
        if wakes.helper {
            self.entrance.helper.notify_one();
        }
    }

    /// Lets all calls pass from now on.
    pub(super) fn end(&self, state: &mut GateState) {
        state.is_over = true;
        self.entrance.open();
        state.release_all();
        for condition in self.turns_of_lanes.iter().chain(&self.turns_of_actors) {
            condition.notify_all();
        }
        self.end.notify_all();
        self.entrance.helper.notify_one();
    }

    /// Leaves the journal's order, and says so. What came is of this call.
    fn diverge(&self, state: &mut GateState, came: CameInstead, coming: Option<&ArrivingCall>) {
        let divergence = divergence::found(&self.plan, state, came, coming);
        say(&format!(
            "the replay {divergence}; from here on, calls are in no order"
        ));
        state.divergence = Some(divergence);
        self.end(state);
    }

    /// Waits until the last calls of the journal are made, as long as there is progress.
    fn wait_for_the_rest(&self) {
        let mut state = self.entrance.enter();
        let began = state.clock.now();
        while !state.is_over {
            let since = began.max(state.turned_at);
            if state.clock.since(since) >= SHORT {
                return;
            }
            state.blocked.push(this_thread());
            self.entrance.keep_awake(state.is_helper_idle);
            let woken = self.end.wait_timeout(state, SHORT / 4);
            (state, _) = woken.unwrap_or_else(PoisonError::into_inner);
            state.unblock(this_thread());
        }
    }

    /// Whether a call was another one than that of the journal.
    pub(crate) fn has_diverged(&self) -> bool {
        self.entrance.enter().divergence.is_some()
    }

    /// Returns how many calls had been made in the journal's order when the replay left it, and
    /// where and why that was, if it has.
    pub(crate) fn left(&self) -> Option<(usize, Divergence)> {
        let state = self.entrance.enter();
        let divergence = state.divergence.clone()?;
        Some((state.position, divergence))
    }

    /// Whether the journal has a channel that was made so, whose calls it orders.
    pub(crate) fn orders(&self, maker: &Maker) -> bool {
        self.plan.channel_by(maker).is_some()
    }

    /// Returns how the replay goes so far.
    pub(crate) fn outcome(&self) -> Replayed {
        let mut state = self.entrance.enter();
        state.is_asked |= state.is_over;
        outcome::replayed(&self.plan, &state)
    }
}
