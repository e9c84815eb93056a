//! The line about the runs so far.

use super::counts::Counts;
use crate::channels::lock::lock;
use std::io::{self, IsTerminal, Write};
use std::sync::Mutex;
use std::time::{Duration, Instant};

/// The line, which is written over on a terminal. Elsewhere there is none.
pub(super) struct Progress {
    name: String,
    runs: u64,
    is_terminal: bool,
    shown_at: Mutex<Instant>,
}

impl Progress {
    pub(super) fn new(name: &str, runs: u64) -> Progress {
        Progress {
            name: name.to_string(),
            runs,
            is_terminal: io::stderr().is_terminal(),
            shown_at: Mutex::new(Instant::now()),
        }
    }

    pub(super) fn show(&self, counts: &Counts, took: Duration) {
        let mut shown_at = lock(&self.shown_at);
        if !self.is_terminal || shown_at.elapsed() < Duration::from_millis(200) {
            return;
        }
        *shown_at = Instant::now();
        let a_second = counts.runs as f64 / took.as_secs_f64();
        let (name, runs, of, orders) = (&self.name, counts.runs, self.runs, counts.orders.len());
        let line = format!(
            "\ryovanelum: explores {name}: {runs} of {of} runs, {orders} orders, {a_second:.0} a second "
        );
        let _ = io::stderr().write_all(line.as_bytes());
    }

    /// Clears the line.
    pub(super) fn clear(&self) {
        if self.is_terminal {
            let _ = io::stderr().write_all(b"\r\x1b[K");
        }
    }
}
