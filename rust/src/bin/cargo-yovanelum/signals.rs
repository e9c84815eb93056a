//! Signals that end a process. This command notes them, so that it can put `Cargo.lock` back once
//! cargo has ended.
#![allow(unsafe_code)]

use std::io;
use std::process::{Child, Command, ExitStatus};
use std::thread;
use std::time::{Duration, Instant};

/// How often a child is looked at.
const LOOK: Duration = Duration::from_millis(10);

/// How long a child may take to end after a signal that a terminal has sent to it too. Then it is
/// passed on.
const PATIENCE: Duration = Duration::from_millis(200);

/// Waits until a child has ended. A signal to this process alone is passed on to it.
///
/// # Errors
///
/// Returns an error where the system gives one.
pub fn wait(child: &mut Child) -> io::Result<ExitStatus> {
    let mut since = None;
    loop {
        if let Some(status) = child.try_wait()? {
            return Ok(status);
        }
        if let Some(signal) = of_system::noted() {
            let first: &mut Instant = since.get_or_insert_with(Instant::now);
            if first.elapsed() > PATIENCE {
                of_system::pass(child, signal);
                *first = Instant::now();
            }
        }
        thread::sleep(LOOK);
    }
}

/// Whether a signal has come that ends this run.
pub fn has_come() -> bool {
    of_system::noted().is_some()
}

pub use of_system::{keep, runs};

/// Has a command end where this process is killed, which nothing can note: else cargo would go on
/// over a lock file that the next run puts back. Systems other than Linux know no such thing.
#[cfg(not(target_os = "linux"))]
pub fn end_with_this(_command: &mut Command) {}

/// Has a command end where this process is killed, which nothing can note: else cargo would go on
/// over a lock file that the next run puts back.
#[cfg(target_os = "linux")]
pub fn end_with_this(command: &mut Command) {
    use std::os::unix::process::{CommandExt, parent_id};

    /// Of `prctl`: which signal a process gets when its parent ends.
    const PR_SET_PDEATHSIG: i32 = 1;
    const SIGTERM: usize = 15;

    unsafe extern "C" {
        fn prctl(option: i32, ...) -> i32;
    }
    let this = std::process::id();
    let ask = move || {
        // SAFETY: it sets a number of the process, which a child may between `fork` and `exec`.
        unsafe { prctl(PR_SET_PDEATHSIG, SIGTERM) };
        // This one may have ended before.
        if parent_id() == this {
            Ok(())
        } else {
            Err(io::Error::from(io::ErrorKind::Interrupted))
        }
    };
    // SAFETY: it makes two system calls and allocates nothing.
    unsafe { command.pre_exec(ask) };
}

#[cfg(unix)]
mod of_system {
    use std::process::Child;
    use std::sync::atomic::{AtomicI32, Ordering};

    /// SIGHUP, SIGINT and SIGTERM, which have these numbers on each system.
    const ENDING: [i32; 3] = [1, 2, 15];

    static NOTED: AtomicI32 = AtomicI32::new(0);

    unsafe extern "C" {
        fn signal(number: i32, handler: usize) -> usize;
        fn kill(process: i32, number: i32) -> i32;
    }

    extern "C" fn note(number: i32) {
        NOTED.store(number, Ordering::Relaxed);
    }

    /// Has these signals noted, and not end this process. What is ignored would be ignored by cargo
    /// too, and so each has a function.
    pub fn keep() {
        for number in ENDING {
            // SAFETY: the function stores a number, which a handler may.
            unsafe { signal(number, note as extern "C" fn(i32) as usize) };
        }
    }

    /// Returns the last signal.
    pub fn noted() -> Option<i32> {
        Some(NOTED.load(Ordering::Relaxed)).filter(|number| *number != 0)
    }

    /// Whether the process with this number is one of this command. Where the system has no files
    /// that say so, another process may have the number.
    pub fn runs(number: u32) -> bool {
        match std::fs::read(format!("/proc/{number}/cmdline")) {
            Ok(line) => String::from_utf8_lossy(&line).contains("yovanelum"),
            Err(_) if std::path::Path::new("/proc/self").exists() => false,
            // SAFETY: no signal is sent, only whether one could be.
            Err(_) => unsafe { kill(number as i32, 0) == 0 },
        }
    }

    /// Sends a signal to a child.
    pub fn pass(child: &Child, number: i32) {
        // SAFETY: it wasn't waited for, so no other process has its number.
        unsafe { kill(child.id() as i32, number) };
    }
}

#[cfg(not(unix))]
mod of_system {
    use std::process::Child;

    /// Elsewhere a process can't go on after what ends it, and the next run puts the lock file
    /// back.
    pub fn keep() {}

    pub fn noted() -> Option<i32> {
        None
    }

    pub fn runs(_number: u32) -> bool {
        false
    }

    pub fn pass(_child: &Child, _number: i32) {}
}
