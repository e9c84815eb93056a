//! Lines to standard error that a test's harness doesn't hold back.

use std::io::{self, Write as _};

/// Writes a line to standard error, also for a test that passes. If standard error is closed,
/// nobody reads it.
pub(crate) fn say(line: &str) {
    let _ = io::stderr().write_all(format!("yovanelum: {line}\n").as_bytes());
}
