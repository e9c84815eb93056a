//! Worked rows of those who wait for a channel: who is woken by a call, in which order, and who still waits. After each call,
//! whoever is listed would wait in the channel as it is.

mod broadcasts;
mod watches;

use proved::Global;
use proved::rw_waiting::{WaitFor, Waiting};

/// A channel, as those who wait for it see it.
trait Channel {
    type Call: Copy;

    /// Makes a call, and returns who is woken by it, in order.
    fn call(&mut self, waiting: &mut Waiting<Waiter>, call: &Self::Call) -> Vec<Waiter>;

    /// Whether the call that waits for this with this handle would wait.
    fn waits(&mut self, what: WaitFor, handle: u32) -> bool;
}

/// A call that waits: its name, what it waits for, and its handle.
#[derive(Clone, Copy, Debug, PartialEq)]
struct Waiter {
    name: &'static str,
    what: WaitFor,
    handle: u32,
}

/// A channel with those who wait for it.
struct Row<C> {
    channel: C,
    waiting: Waiting<Waiter>,
    // Who is listed, with the ticket, in the order in which they began to wait.
    listed: Vec<(u64, Waiter)>,
}

impl<C: Channel> Row<C> {
    fn of(channel: C) -> Row<C> {
        Row {
            channel,
            waiting: Waiting::new(Global),
            listed: Vec::new(),
        }
    }

    /// A call begins to wait, which it has to.
    fn begins(&mut self, name: &'static str, what: WaitFor, handle: u32) {
        assert!(self.channel.waits(what, handle), "{name} has to wait");
        let waiter = Waiter { name, what, handle };
        let ticket = self.waiting.wait(what, waiter).unwrap();
        self.listed.push((ticket, waiter));
        self.all_would_wait();
    }

    /// A call gives up.
    fn gives_up(&mut self, name: &str) {
        let place = self
            .listed
            .iter()
            .position(|(_, waiter)| waiter.name == name)
            .unwrap();
        let (ticket, waiter) = self.listed.remove(place);
        assert_eq!(self.waiting.leave(waiter.what, ticket), Some(waiter));
        assert_eq!(
            self.waiting.leave(waiter.what, ticket),
            None,
            "{name} has left"
        );
        self.all_would_wait();
    }

    /// A call is made, which wakes these, in this order. They needn't wait any more.
    fn wakes(&mut self, call: C::Call, names: &[&str]) {
        let woken = self.channel.call(&mut self.waiting, &call);
        assert_eq!(
            woken.iter().map(|waiter| waiter.name).collect::<Vec<_>>(),
            names
        );
        for waiter in &woken {
            assert!(
                !self.channel.waits(waiter.what, waiter.handle),
                "{} was woken in vain",
                waiter.name
            );
        }
        self.listed.retain(|(_, waiter)| !woken.contains(waiter));
        self.all_would_wait();
    }

    /// Whoever is listed would wait.
    fn all_would_wait(&mut self) {
        for (ticket, waiter) in &self.listed {
            assert_eq!(self.waiting.waker(waiter.what, *ticket), Some(waiter));
            assert!(
                self.channel.waits(waiter.what, waiter.handle),
                "{} waits in vain",
                waiter.name
            );
        }
        for what in [WaitFor::Value, WaitFor::NoReceiver] {
            let nobody = !self.listed.iter().any(|(_, waiter)| waiter.what == what);
            assert_eq!(self.waiting.is_empty(what), nobody);
        }
    }
}
