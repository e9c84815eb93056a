//! The thread that wakes tasks, and that lets one go where the last one to run has fallen asleep
//! elsewhere.

use super::Explorer;
use super::stand::Stand;
use super::state::ExplorerState;
use std::panic::{self, AssertUnwindSafe};
use std::sync::{MutexGuard, PoisonError};
use std::time::{Duration, Instant};
use std::{io, mem, thread};

/// How long nothing moves before a thread that runs on is looked for.
const PATIENCE: Duration = Duration::from_millis(2);

/// How long the others wait for it at most, where the system doesn't say how long it runs.
const PATIENCE_WAITING: Duration = Duration::from_secs(10);

/// How long all wait forever before the run is said to hang.
const HUNG_AFTER: Duration = Duration::from_millis(500);

/// How often it is looked whether they do, and whether a timer ends.
const BETWEEN_LOOKS: Duration = Duration::from_millis(10);
const LEAST_BETWEEN_LOOKS: Duration = Duration::from_micros(200);

/// Starts the thread. It ends when all calls pass.
pub(super) fn start(explorer: &'static Explorer) -> io::Result<()> {
    let thread = thread::Builder::new().name("yovanelum-explore".to_string());
    let help: Box<dyn FnOnce() + Send> = Box::new(move || {
        let mut helper = Helper {
            explorer,
            quiet_since: None,
        };
        helper.help();
    });
    thread.spawn(help).map(drop)
}

struct Helper {
    explorer: &'static Explorer,
    /// Since when all wait forever.
    quiet_since: Option<Instant>,
}

impl Helper {
    fn help(&mut self) {
        loop {
            let mut state = self.explorer.entrance.lock();
            if !state.wakers.is_empty() {
                self.wake(state);
                continue;
            }
            if self.explorer.entrance.is_over() {
                return;
            }
            if state.stands.iter().any(|stand| !stand.is_chosen) {
                self.quiet_since = None;
                self.look(&mut state);
                let still = state.moved_at.elapsed();
                drop(state);
                if still < Duration::from_micros(200) {
                    thread::yield_now()
                } else {
                    thread::sleep(Duration::from_micros(50))
                }
            } else {
                state.keep_time();
                if !state.wakers.is_empty() {
                    continue;
                }
                self.look_for_hang(&mut state);
                state.is_helper_idle = true;
                let wait = state.clock.next().unwrap_or(BETWEEN_LOOKS);
                let wait = wait.clamp(LEAST_BETWEEN_LOOKS, BETWEEN_LOOKS);
                let woken = self.explorer.entrance.helper.wait_timeout(state, wait);
                let (mut state, _) = woken.unwrap_or_else(PoisonError::into_inner);
                state.is_helper_idle = false;
            }
        }
    }

    fn wake(&self, mut state: MutexGuard<'_, ExplorerState>) {
        let wakers = mem::take(&mut state.wakers);
        state.waking = wakers.len();
        drop(state);
        for waker in wakers {
            // One that panics leaves the others to be woken.
            let _ = panic::catch_unwind(AssertUnwindSafe(|| waker.wake()));
        }
        let mut state = self.explorer.entrance.lock();
        state.waking = 0;
        state.new_rounds();
    }

    /// Lets one go if all others sleep, or if one runs on and on.
    fn look(&self, state: &mut ExplorerState) {
        let before = state.schedule.steps.len();
        self.explorer.try_choose(state);
        let still = state.moved_at.elapsed();
        if state.schedule.steps.len() > before {
            return;
        }
        if state.clock.next().is_some() {
            state.keep_time();
        }
        if still < PATIENCE {
            return;
        }
        if still > PATIENCE_WAITING || state.runs_on().is_some() {
            let is_going = |stand: &Stand| stand.is_chosen && stand.is_blocking();
            if !state.stands.iter().any(is_going) {
                state.schedule.restless += 1;
                self.explorer.choose(state, &[]);
            }
        }
    }

    /// Ends the process if all wait forever, and nobody stands.
    fn look_for_hang(&mut self, state: &mut ExplorerState) {
        let rest = state.rest();
        let is_quiet = !state.schedule.by_clock
            && rest.is_some_and(|rest| !rest.iter().any(super::threads::Sleeper::is_timed))
            && state.clock.next().is_none()
            && !state.stands.iter().any(Stand::is_blocking);
        match (is_quiet, self.quiet_since) {
            (false, _) => self.quiet_since = None,
            (true, None) => self.quiet_since = Some(Instant::now()),
            (true, Some(since)) if since.elapsed() < HUNG_AFTER => (),
            (true, Some(_)) => {
                let places = mem::take(&mut state.wait_places);
                super::run::end_hung(&mut state.schedule, &places)
            }
        }
    }
}
