//! A handle of a script, and the call on it that waits.

use super::seen::{self, Answer};
use std::future::Future;
use std::mem;
use std::pin::Pin;
use std::ptr::NonNull;
use std::task::{Context, Poll, Waker};

pub type Waiting<'a> = Pin<Box<dyn Future<Output = Answer> + 'a>>;

/// Numbers the wakers of a script from 0.
#[derive(Default)]
pub struct Wakers(u32);

/// A call that waits, with the waker of its last poll.
pub struct Wait {
    word: &'static str,
    future: Waiting<'static>,
    waker: Option<(u32, Waker)>,
}

impl Wait {
    pub fn new(word: &'static str, future: Waiting<'static>) -> Wait {
        let waker = None;
        Wait {
            word,
            future,
            waker,
        }
    }

    /// Polls the call as a task of its own, or as the one that polled it last. Notes its answer.
    /// Returns whether it goes on waiting.
    pub fn poll(&mut self, handle: u32, wakers: &mut Wakers, as_last: bool) -> bool {
        if !as_last || self.waker.is_none() {
            self.waker = Some((wakers.0, seen::waker(wakers.0)));
            wakers.0 += 1;
        }
        let (_, waker) = self.waker.as_ref().unwrap();
        let polled = self.future.as_mut().poll(&mut Context::from_waker(waker));
        let waits = polled.is_pending();
        let answer = match polled {
            Poll::Ready(answer) => answer,
            Poll::Pending => Answer::Waits,
        };
        seen::call(self.word, handle, answer);
        waits
    }

    /// Forgets the future. Returns the number of its last waker.
    pub fn forget(self) -> Option<u32> {
        mem::forget(self.future);
        self.waker.map(|(number, _)| number)
    }
}

/// A handle with its number. While calls on it wait, it is theirs.
pub struct Seat<H: 'static> {
    pub number: u32,
    handle: NonNull<H>,
    waits: Vec<Wait>,
    /// The wakers of the handle's futures that were forgotten.
    forgotten: Vec<u32>,
}

impl<H> Seat<H> {
    pub fn new(number: u32, handle: H) -> Seat<H> {
        Seat {
            number,
            handle: NonNull::from(Box::leak(Box::new(handle))),
            waits: vec![],
            forgotten: vec![],
        }
    }

    /// Returns how many calls wait.
    pub fn waits(&self) -> usize {
        self.waits.len()
    }

    /// Returns the handle, on which no call waits.
    pub fn alone(&mut self) -> &mut H {
        assert!(self.waits.is_empty());
        // SAFETY: the handle is there until the seat is dropped, and no future has it but forgotten
        // ones, which nothing polls or drops.
        unsafe { self.handle.as_mut() }
    }

    /// Begins a call that may wait, and that needs the handle alone. Notes its answer.
    pub fn begin(
        &mut self,
        word: &'static str,
        call: fn(&'static mut H) -> Waiting<'static>,
        wakers: &mut Wakers,
    ) {
        assert!(self.waits.is_empty());
        // SAFETY: as above, and the future is dropped before the handle.
        let handle = unsafe { self.handle.as_mut() };
        if self.wait(Wait::new(word, call(handle)), wakers) {
            seen::are_over(&mut self.forgotten);
        }
    }

    /// Polls a call that begins, and keeps it if it waits.
    fn wait(&mut self, mut wait: Wait, wakers: &mut Wakers) -> bool {
        let waits = wait.poll(self.number, wakers, false);
        self.waits.extend(waits.then_some(wait));
        waits
    }

    /// Polls the call at this place of those that wait.
    pub fn poll(&mut self, at: usize, wakers: &mut Wakers, as_last: bool) {
        if !self.waits[at].poll(self.number, wakers, as_last) {
            self.waits.remove(at);
        }
    }

    /// Drops a call that waits.
    pub fn cancel(&mut self, at: usize) {
        self.waits.remove(at);
    }

    /// Forgets a call that waits.
    pub fn forget(&mut self, at: usize) {
        let waker = self.waits.remove(at).forget();
        self.forgotten.extend(waker);
    }
}

/// A handle by which several calls may wait beside others: their futures share it.
pub struct Shared<H: 'static>(Seat<H>);

impl<H> Shared<H> {
    pub fn new(number: u32, handle: H) -> Shared<H> {
        Shared(Seat::new(number, handle))
    }

    pub fn handle(&self) -> &H {
        // SAFETY: the handle is there until this is dropped, and nobody has it alone.
        unsafe { self.0.handle.as_ref() }
    }

    /// Forgets a call that waits. It does so until it is woken, as in tokio.
    pub fn forget(&mut self, at: usize) {
        self.0.waits.remove(at).forget();
    }

    /// Returns what waits. Its handle is never asked for alone.
    pub fn waiting(&mut self) -> &mut Seat<H> {
        &mut self.0
    }

    /// Begins a call that may wait. Notes its answer.
    pub fn begin(
        &mut self,
        word: &'static str,
        call: fn(&'static H) -> Waiting<'static>,
        wakers: &mut Wakers,
    ) {
        // SAFETY: as above, and the future is dropped before the handle.
        let handle = unsafe { self.0.handle.as_ref() };
        self.0.wait(Wait::new(word, call(handle)), wakers);
    }
}

impl<H> Drop for Seat<H> {
    fn drop(&mut self) {
        self.waits.clear();
        seen::are_over(&mut self.forgotten);
        // SAFETY: it was made by `Box`, and is dropped once.
        drop(unsafe { Box::from_raw(self.handle.as_ptr()) });
        seen::call("drop", self.number, Answer::Dropped);
    }
}
