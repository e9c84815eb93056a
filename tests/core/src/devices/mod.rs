//! A reader and a writer in memory that work in small pieces and fail at a call.
//!
//! They say which bytes are left and which were written, and fail exactly at the call that they are set to fail at.

mod calls;
mod readers;
mod writers;

pub use readers::FailingReader;
pub use writers::FailingWriter;

/// Plays a run over devices that fail after a number of calls, for each number below `most`. It says whether the run was whole, and is
/// told whether an earlier one was. The last one has to be.
pub fn at_each_call(most: u64, is_whole: fn(u64, bool) -> bool) {
    assert!((0..most).fold(false, |done, calls| is_whole(calls, done)));
}
