//! What is kept of the refusals that a part met, and what it said.

use crate::refusing::paused;
use proved::rw_law::NoMemory;
use std::cell::{Cell, RefCell};
use std::fmt::{Arguments, Write};

/// How often a call is asked for. It is answered at the second time where one request is refused.
pub const TRIES: u32 = 3;

thread_local! {
    static SAID: RefCell<String> = const { RefCell::new(String::new()) };
    static MET: Cell<u64> = const { Cell::new(0) };
}

/// Counts a call that returned a refusal of memory. It has to have changed nothing.
pub fn refused(kept: bool) {
    assert!(kept, "something was lost at a refusal");
    MET.set(MET.get() + 1);
}

/// Asks until memory isn't refused, [`TRIES`] times at most. At a refusal the thing that is asked shows what it showed before.
pub fn tried<M, S: PartialEq, T>(
    mut asked: M,
    shown: impl Fn(&M) -> S,
    mut ask: impl FnMut(&mut M) -> Result<T, NoMemory>,
) -> Result<T, NoMemory> {
    let before = shown(&asked);
    for _ in 0..TRIES {
        match ask(&mut asked) {
            Ok(answer) => return Ok(answer),
            Err(NoMemory) => refused(shown(&asked) == before),
        }
    }
    Err(NoMemory)
}

/// The same, where nothing is there before.
pub fn made<T>(mut make: impl FnMut() -> Result<T, NoMemory>) -> Result<T, NoMemory> {
    tried((), |()| (), |()| make())
}

/// Appends a text to what is said, whose memory isn't refused.
pub fn append(text: Arguments<'_>) {
    paused(|| SAID.with_borrow_mut(|said| said.write_fmt(text).unwrap()));
}

/// Appends a line, as `println!` says it.
macro_rules! say {
    ($($text:tt)+) => {
        $crate::met::append(format_args!("{}\n", format_args!($($text)+)))
    };
}
pub(crate) use say;

/// Returns what a part says, and how many refusals it met.
pub fn said_by(play: fn()) -> (String, u64) {
    MET.set(0);
    play();
    (SAID.take(), MET.get())
}
