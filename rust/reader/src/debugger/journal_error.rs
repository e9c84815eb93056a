//! Why a journal text is refused.

use std::error::Error;
use std::fmt;
use yovanelum_record::journal::{self, TextFault};

/// Why a journal text is refused: the first error in it, or that there was no memory. Its text is
/// that of `ttd check`.
///
/// ```
/// use yovanelum::debugger::Walk;
///
/// let error = Walk::open(b"ttd-journal 2\nsteps\nend\n").unwrap_err();
/// assert_eq!(error.to_string(), "journal fault malformed 2");
/// ```
#[derive(Clone, Copy, PartialEq, Eq)]
pub struct JournalError(pub(super) TextFault);

impl JournalError {
    /// The line that is wrong, counted from 1. A truncated text has none, and neither has missing
    /// memory.
    ///
    /// ```
    /// # use yovanelum::debugger::Walk;
    /// let error = Walk::open(b"ttd-journal 2\nsteps\nend\n").unwrap_err();
    /// assert_eq!(error.line(), Some(2));
    /// ```
    pub fn line(&self) -> Option<u64> {
        match self.0 {
            TextFault::Malformed(line)
            | TextFault::LimitExceeded(line)
            | TextFault::WrongOrder(line)
            | TextFault::WrongReply(line) => Some(line),
            TextFault::Truncated | TextFault::NoMemory => None,
        }
    }

    /// Whether the text ends too early and has no other error, so that
    /// [`Walk::salvage`](super::Walk::salvage) opens what is there.
    ///
    /// ```
    /// # use yovanelum::debugger::Walk;
    /// let error = Walk::open(b"ttd-journal 2\nbroadcast 2\nsteps\n").unwrap_err();
    /// assert!(error.is_truncated());
    /// ```
    pub fn is_truncated(&self) -> bool {
        self.0 == TextFault::Truncated
    }
}

impl fmt::Debug for JournalError {
    fn fmt(&self, f: &mut fmt::Formatter<'_>) -> fmt::Result {
        write!(f, "JournalError({self})")
    }
}

impl fmt::Display for JournalError {
    fn fmt(&self, f: &mut fmt::Formatter<'_>) -> fmt::Result {
        f.write_str(&journal::said(self.0))
    }
}

impl Error for JournalError {}
