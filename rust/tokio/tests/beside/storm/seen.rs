//! What a script sees: the answers of its calls, the tasks that are woken and the values that are
//! dropped, all in order.

use std::cell::RefCell;
use std::mem;
use std::sync::Arc;
use std::task::{Wake, Waker};

/// What a call returns, by the words of a journal.
#[derive(Clone, Debug, PartialEq, Eq)]
pub enum Answer {
    Sent(usize),
    Stored,
    NoReceivers(u64),
    Value(u64),
    Old(u64),
    Told(bool),
    Lagged(u64),
    Empty,
    Closed,
    New(u32),
    Dropped,
    Count(usize),
    Flag(bool),
    Done,
    /// The call waits, and so is no entry of a journal.
    Waits,
}

#[derive(Clone, Debug, PartialEq, Eq)]
pub enum Seen {
    /// A call: its word and what follows it in a journal, and its answer.
    Call(&'static str, u32, Option<u64>, Answer),
    /// The waker with this number was woken.
    Woken(u32),
    /// The same, of a forgotten future whose handle has begun another wait, or was dropped.
    WokenLate(u32),
    /// The value with this number was dropped, and not a clone of it.
    Dropped(u64),
}

#[derive(Default)]
struct All {
    seen: Vec<Seen>,
    /// The wakers of forgotten futures whose handles wait by another one, or are dropped.
    over: Vec<u32>,
}

thread_local! {
    static ALL: RefCell<All> = RefCell::default();
}

/// Notes something behind all that this thread has seen.
fn note(seen: Seen) {
    ALL.with_borrow_mut(|all| all.seen.push(seen));
}

/// Notes the call of this word on a handle, and what it returned.
pub fn call(word: &'static str, handle: u32, answer: Answer) {
    note(Seen::Call(word, handle, None, answer));
}

/// Notes a call that takes a value.
pub fn call_with(word: &'static str, handle: u32, value: u64, answer: Answer) {
    note(Seen::Call(word, handle, Some(value), answer));
}

/// Notes that the forgotten futures with these wakers don't wait any more.
pub fn are_over(wakers: &mut Vec<u32>) {
    ALL.with_borrow_mut(|all| all.over.append(wakers));
}

/// Returns what this thread has seen since it was asked last.
pub fn take() -> Vec<Seen> {
    ALL.with_borrow_mut(|all| {
        all.over.clear();
        mem::take(&mut all.seen)
    })
}

/// A value that notes when it is dropped, unless it is a clone.
#[derive(Debug)]
pub struct Value {
    pub number: u64,
    is_clone: bool,
}

impl Value {
    pub fn new(number: u64) -> Value {
        Value {
            number,
            is_clone: false,
        }
    }
}

impl Clone for Value {
    fn clone(&self) -> Value {
        Value {
            number: self.number,
            is_clone: true,
        }
    }
}

impl Drop for Value {
    fn drop(&mut self) {
        if !self.is_clone {
            note(Seen::Dropped(self.number));
        }
    }
}

/// A task that notes its number when it is woken.
struct Task(u32);

impl Wake for Task {
    fn wake(self: Arc<Self>) {
        let is_over = ALL.with_borrow(|all| all.over.contains(&self.0));
        note(match is_over {
            true => Seen::WokenLate(self.0),
            false => Seen::Woken(self.0),
        });
    }
}

/// Returns a waker with this number.
pub fn waker(number: u32) -> Waker {
    Waker::from(Arc::new(Task(number)))
}
