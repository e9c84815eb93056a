//! The thread that wakes the futures before a gate.
//!
//! A task that a worker of a runtime wakes is the next one of that worker, and no other worker runs
//! it. If the worker then blocked before the gate, that task would never be polled. So futures are
//! woken by a thread of no runtime alone.

use super::gate::{BETWEEN_LOOKS, Gate};
use super::rest::RestWatch;
use super::state::GateState;
use std::panic::{self, AssertUnwindSafe};
use std::sync::{Arc, PoisonError};
use std::task::Waker;
use std::time::Instant;
use std::{io, thread};

/// Starts the thread. It ends when all calls pass.
pub(super) fn start(gate: &Arc<Gate>) -> io::Result<()> {
    let gate = gate.clone();
    let mut rest = RestWatch::new();
    let thread = thread::Builder::new().name("yovanelum-replay".to_string());
    let help: Box<dyn FnOnce() + Send> = Box::new(move || help(&gate, &mut rest));
    thread.spawn(help).map(drop)
}

fn help(gate: &Gate, rest: &mut RestWatch) {
    let mut state = gate.entrance.lock();
    let mut last_look = Instant::now();
    loop {
        let woken = std::mem::take(&mut state.woken);
        if !woken.is_empty() {
            drop(state);
            woken.into_iter().for_each(wake);
            state = gate.entrance.lock();
        } else if state.is_over {
            return;
        } else if !state.is_anyone_waiting() {
            state.is_helper_idle = true;
            let woken = gate.entrance.helper.wait(state);
            state = woken.unwrap_or_else(PoisonError::into_inner);
            state.is_helper_idle = false;
            last_look = Instant::now();
        } else if last_look.elapsed() >= BETWEEN_LOOKS {
            let is_at_rest = is_at_rest(gate, &state, rest);
            gate.look_after_futures(&mut state, is_at_rest);
            last_look = Instant::now();
        } else {
            let woken = gate.entrance.helper.wait_timeout(state, BETWEEN_LOOKS);
            (state, _) = woken.unwrap_or_else(PoisonError::into_inner);
        }
    }
}

/// Whether all threads sleep, and have since the last look. Then a poll that is held back isn't
/// what they wait for. Nobody asks unless one is.
fn is_at_rest(gate: &Gate, state: &GateState, rest: &mut RestWatch) -> bool {
    if !state.is_any_held() || !gate.entrance.is_still() {
        rest.forget();
        return false;
    }
    rest.is_seen(state.turned_at, &state.blocked) && gate.entrance.is_still()
}

/// Wakes a future. A waker that panics leaves the others to be woken.
fn wake(waker: Waker) {
    let _ = panic::catch_unwind(AssertUnwindSafe(|| waker.wake()));
}
