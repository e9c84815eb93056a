//! Where a replay stops for a native debugger: in the thread that makes the call, before it is
//! made.
#![allow(unsafe_code)]

use super::outcome::{call_of, step_in_words};
use super::plan::Plan;
use crate::channels::standard_error::say;
use std::{env, io};

/// The variable that says before which call of the journal a replay stops, from 1 on.
pub(super) const STOP: &str = "YOVANELUM_REPLAY_STOP";

/// Whether the variable is set.
pub(crate) fn is_wanted() -> bool {
    env::var_os(STOP).is_some()
}

/// Returns the index of the call that the variable says, in a journal with `calls` calls.
pub(super) fn index(text: Option<String>, calls: usize) -> io::Result<Option<usize>> {
    let Some(text) = text else {
        return Ok(None);
    };
    let number = text.parse().ok();
    let number = number.filter(|number| (1..=calls).contains(number));
    let index = number.map(|number| Some(number - 1));
    index.ok_or_else(|| {
        let fault = format!("{STOP} is `{text}`, and no number of a call: the journal has {calls}");
        io::Error::new(io::ErrorKind::InvalidInput, fault)
    })
}

/// Stops in the debugger that this process runs under. Without one, nothing stops. One line says
/// so.
#[inline(never)]
pub(super) fn stop_before(plan: &Plan, position: usize) {
    let mut call = call_of(plan, position);
    if let Some(step) = plan.steps.get(position) {
        call = format!("{call}, {}", step_in_words(plan, step));
    }
    if debugger::is_attached() {
        say(&format!("the replay stops in the debugger before {call}"));
        debugger::stop();
    } else {
        say(&format!(
            "no debugger is attached, so the replay goes on at {call}"
        ));
    }
}

#[cfg(all(unix, not(miri)))]
mod debugger {
    /// Linux says so. Elsewhere a debugger is taken to be there.
    pub(super) fn is_attached() -> bool {
        let status = std::fs::read_to_string("/proc/self/status").unwrap_or_default();
        let mut lines = status.lines();
        let tracer = lines.find_map(|line| line.strip_prefix("TracerPid:"));
        tracer.is_none_or(|tracer| tracer.trim() != "0")
    }

    /// Raises the signal of a breakpoint in this thread. A debugger gets it also where the program
    /// ignores it, and nobody else does: a program like strace, which isn't one, has no way to end
    /// the test by it.
    pub(super) fn stop() {
        const SIGTRAP: i32 = 5;
        const IGNORE: usize = 1;
        unsafe extern "C" {
            fn raise(signal: i32) -> i32;
            fn signal(signal: i32, handler: usize) -> usize;
        }
        // SAFETY: both are functions of POSIX, and are given what they take: `IGNORE`, and the
        // handler that was there before. The signal runs no code of this process, since it is
        // ignored while it is raised.
        unsafe {
            let before = signal(SIGTRAP, IGNORE);
            raise(SIGTRAP);
            signal(SIGTRAP, before);
        }
    }
}

#[cfg(windows)]
mod debugger {
    #[link(name = "kernel32")]
    unsafe extern "system" {
        safe fn IsDebuggerPresent() -> i32;
        fn DebugBreak();
    }

    pub(super) fn is_attached() -> bool {
        IsDebuggerPresent() != 0
    }

    pub(super) fn stop() {
        // SAFETY: a debugger is attached, which gets the exception.
        unsafe { DebugBreak() };
    }
}

#[cfg(not(any(windows, all(unix, not(miri)))))]
mod debugger {
    pub(super) fn is_attached() -> bool {
        false
    }

    pub(super) fn stop() {}
}

#[cfg(test)]
mod tests {
    use super::*;

    fn index_of(text: &str) -> Result<Option<usize>, String> {
        index(Some(text.to_string()), 6).map_err(|fault| fault.to_string())
    }

    #[test]
    fn the_call_is_that_of_the_variable() {
        assert_eq!(index(None, 6).unwrap(), None);
        assert_eq!(index_of("1"), Ok(Some(0)));
        assert_eq!(index_of("6"), Ok(Some(5)));
        for text in ["0", "7", "", "-1", "send", "18446744073709551616"] {
            let fault = format!(
                "YOVANELUM_REPLAY_STOP is `{text}`, and no number of a call: the journal has 6"
            );
            assert_eq!(index_of(text), Err(fault));
        }
    }
}
