//! The calls that wait for one channel.
// From crates/rw_waiting/src/waiting.rt, with its contracts as comments. //+
//~ ghost use Rattle.std.specs.Prelude.{◌≡◌, ◌<◌, ◌^◌, ◌==◌, None, Some, length, IfErr, IfOk, OnErr, OnOk};
//~ ghost use Rattle.std.specs.Option.{option_copied};
//~ ghost use Rattle.rw_waiting.specs.Listed.{after_told, nobody, waiting_for, with_queue, with_waiter, without_ticket, woken};
//~ ghost use Rattle.rw_waiting.specs.Queue.{entries_of, item_of, with_other};

use crate::source::rw_waiting::notices::WaitFor;
use crate::source::rw_waiting::queue::Queue;
use crate::source::rw_law::NoMemory;
use crate::shim::alloc::Global;
use crate::shim::collections::BTreeMap;
//~ use std::marker::Model;

/// The calls that wait for a channel, each with what wakes it: a `W`. They are in the order in which they began to wait, and each has a
/// ticket, which no other call that waits for the same gets.
//~ #[derive(Drop)]
pub struct Waiting<W> {
    for_value: Queue<W>,
    for_no_receiver: Queue<W>,
}

//~ impl<W> Model for Waiting<W> {
//~     ghost use Rattle.rw_waiting.specs.Listed.{Listed};
//~
//~     ghost Value = { Listed W };
//~
//~     ghost view = { λ w. record { for_value = w.for_value; for_no_receiver = w.for_no_receiver } };
//~ }

impl<W/*~: Drop~*/> Waiting<W> {
    /// Returns the list of a channel that nobody waits for.
    pub fn new(alloc: Global) -> Waiting<W>
//~         ensures { result ≡ nobody }
    {
        Waiting {
            for_value: Queue::new(alloc),
            for_no_receiver: Queue::new(alloc),
        }
    }

    /// Returns who waits for this.
    #[inline(always)] //+
    fn queue(&self, what: WaitFor) -> &Queue<W>
//~         ensures { result.now ≡ waiting_for self.now what }
    {
        match what {
            WaitFor::Value => &self.for_value,
            WaitFor::NoReceiver => &self.for_no_receiver,
        }
    }

    /// Whether nobody waits for this.
    #[inline(always)] //+
    pub fn is_empty(&self, what: WaitFor) -> bool
//~         ensures { result ≡ (length (waiting_for self.now what).items == 0) }
    {
        self.queue(what).is_empty()
    }

    /// Lists a call that begins to wait, behind the others, and returns its ticket. If the allocation fails, nothing has changed, and what
    /// wakes the call is dropped.
    pub fn wait(&mut self, what: WaitFor, waker: W) -> Result<u64, NoMemory>
//~         requires { (waiting_for self.old what).next < 2 ^ 63 }
//~         ensures ticket { IfOk result (λ ticket. ticket ≡ (waiting_for self.old what).next) }
//~         ensures listed { IfOk result (λ _. self.new ≡ with_waiter self.old what waker) }
//~         ensures same { OnErr result (self.new ≡ self.old) }
    {
        match what {
            WaitFor::Value => self.for_value.add(waker),
            WaitFor::NoReceiver => self.for_no_receiver.add(waker),
        }
    }

    /// Returns what wakes the call with this ticket, if it waits.
    pub fn waker(&self, what: WaitFor, ticket: u64) -> Option<&W>
//~         ensures { option_copied result ≡ item_of (waiting_for self.now what) ticket }
    {
        self.queue(what).get(ticket)
    }

    /// Has the call with this ticket woken by something else from now on, and returns what woke it so far. It stays where it is. If it
    /// doesn't wait, nothing has changed, and the other one comes back.
    pub fn renew(&mut self, what: WaitFor, ticket: u64, waker: W) -> Result<W, W>
//~         ensures before { IfOk result (λ before. item_of (waiting_for self.old what) ticket ≡ Some before) }
//~         ensures renewed { OnOk result (self.new ≡ with_queue self.old what (with_other (waiting_for self.old what) ticket waker)) }
//~         ensures absent { OnErr result (item_of (waiting_for self.old what) ticket ≡ None) }
//~         ensures back { IfErr result (λ back. back ≡ waker) }
//~         ensures same { OnErr result (self.new ≡ self.old) }
    {
        match what {
            WaitFor::Value => self.for_value.replace(ticket, waker),
            WaitFor::NoReceiver => self.for_no_receiver.replace(ticket, waker),
        }
    }

    /// Takes the call with this ticket off the list, since it gives up or is done, and returns what would have woken it. If it doesn't
    /// wait, nothing changes.
    pub fn leave(&mut self, what: WaitFor, ticket: u64) -> Option<W>
//~         ensures waker { result ≡ item_of (waiting_for self.old what) ticket }
//~         ensures left { self.new ≡ without_ticket self.old what ticket }
    {
        match what {
            WaitFor::Value => self.for_value.remove(ticket),
            WaitFor::NoReceiver => self.for_no_receiver.remove(ticket),
        }
    }

    /// Removes the calls that this wakes from the list, and returns what wakes them by their tickets, so in order.
    pub fn woken(&mut self, alloc: Global, told: Option<WaitFor>) -> BTreeMap<u64, W>
//~         ensures woken { entries_of result.entries ≡ woken self.old told }
//~         ensures left { self.new ≡ after_told self.old told }
    {
        match told {
            None => BTreeMap::new(alloc),
            Some(WaitFor::Value) => self.for_value.remove_all(alloc),
            Some(WaitFor::NoReceiver) => self.for_no_receiver.remove_all(alloc),
        }
    }
}
