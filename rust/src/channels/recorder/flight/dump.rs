//! A dump that somebody has begun, and how many there were.

use crate::channels::oneshot::Receiver;
use std::io;
use std::path::PathBuf;

/// A dump of a flight recorder that is being written, returned by
/// [`Recorder::dump`](crate::Recorder::dump).
///
/// If it is dropped, the dump is written all the same.
///
/// # Examples
///
/// ```
/// use std::{env, process};
/// use yovanelum::{Dump, Recorder, broadcast};
///
/// let recorder = Recorder::flight(100);
/// let folder = env::temp_dir().join(format!("a-dump-{}", process::id()));
/// recorder.dump_to(&folder);
/// let _entered = recorder.enter();
/// let _channel = broadcast::channel::<u32>(16);
/// let dump: Dump = recorder.dump("asked for");
/// assert!(dump.wait()?.starts_with(&folder));
/// # std::fs::remove_dir_all(folder)?;
/// # Ok::<(), std::io::Error>(())
/// ```
#[derive(Debug)]
pub struct Dump(pub(crate) Receiver<io::Result<PathBuf>>);

impl Dump {
    /// Waits until the dump is written, and returns the path of its journal. The names are beside
    /// it.
    ///
    /// It blocks the thread. In a task, call it on a thread where that is allowed.
    ///
    /// # Errors
    ///
    /// Returns an error if the dump is not written: the recorder is no flight recorder, or has no
    /// folder or no channel, too many dumps are being written, or a file, memory or a thread was
    /// refused. An error of a file says its path.
    ///
    /// # Examples
    ///
    /// ```
    /// use yovanelum::Recorder;
    ///
    /// let error = Recorder::new().dump("a try").wait().unwrap_err();
    /// assert_eq!(error.to_string(), "this recorder is no flight recorder");
    /// ```
    pub fn wait(self) -> io::Result<PathBuf> {
        let ended = self.0.recv();
        ended.unwrap_or_else(|| Err(io::Error::other("the dump has ended early")))
    }
}

/// How many dumps of a flight recorder there were, returned by
/// [`Recorder::dumps`](crate::Recorder::dumps).
///
/// # Examples
///
/// ```
/// use yovanelum::{Dumps, Recorder};
///
/// let dumps: Dumps = Recorder::flight(100).dumps();
/// assert_eq!(dumps, Dumps::default());
/// ```
#[derive(Clone, Copy, Debug, Default, PartialEq, Eq)]
pub struct Dumps {
    pub(super) written: u64,
    pub(super) failed: u64,
    pub(super) left_out: u64,
}

impl Dumps {
    /// Returns how many were written.
    pub fn written(&self) -> u64 {
        self.written
    }

    /// Returns how many failed. A line on standard error has said why.
    pub fn failed(&self) -> u64 {
        self.failed
    }

    /// Returns how many were called for and not begun: the last one for such a reason was begun too
    /// short a time before ([`at_most_every`](crate::DumpTo::at_most_every)), or is still being
    /// written, or too many are.
    pub fn left_out(&self) -> u64 {
        self.left_out
    }
}
