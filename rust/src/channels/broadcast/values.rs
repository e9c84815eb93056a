//! The values of a broadcast. The core knows only their numbers. By these they are in a proved
//! store, which gives each of them back when no receiver has yet to receive it.
//!
//! A value is stored in its place there. A large one is on the heap from its send on, so that it
//! isn't moved from one part of a call to the next: without optimization each would have it on its
//! stack.

use crate::channels::in_place::arc_of;
use crate::channels::reentrant::Reentrant;
use std::alloc::{Layout, handle_alloc_error};
use std::sync::Arc;
use yovanelum_core::shim::{Vec as CoreVec, alloc::Global};
use yovanelum_core::source::rw_law::NoMemory;
use yovanelum_core::source::rw_values;

/// A value of more bytes is stored on the heap.
const LARGE: usize = 1024;

/// A value that receivers have yet to receive.
pub(super) enum Value<T> {
    /// Sent to one receiver.
    Own(T),
    /// Sent to several receivers. Threads clone it in turn, since a `T` need not be `Sync`.
    Shared(Arc<Reentrant<T>>),
}

impl<T> Value<T> {
    /// Returns the value for one of several receivers.
    #[inline(always)]
    fn share(&self) -> Value<T> {
        match self {
            Value::Shared(value) => Value::Shared(value.clone()),
            Value::Own(_) => unreachable!("one receiver is the last"),
        }
    }
}

impl<T: Clone> Value<T> {
    /// Returns a clone, also for the last receiver, as in tokio. The original is dropped with its
    /// last `Value`.
    #[inline]
    pub(super) fn cloned(&self) -> T {
        match self {
            Value::Own(value) => value.clone(),
            Value::Shared(value) => value.with(T::clone),
        }
    }
}

/// A large value, for all of its receivers.
pub(super) type LargeValue<T> = Arc<Reentrant<T>>;

/// The values that a receiver may still receive.
pub(super) struct Values<T> {
    small: rw_values::Values<Value<T>>,
    // Of values that are large.
    large: Option<Box<rw_values::Values<LargeValue<T>>>>,
}

impl<T> Values<T> {
    /// Creates an empty store of as many values as the channel retains. Memory is allocated as they
    /// are sent.
    pub(super) fn new(capacity: usize) -> Values<T> {
        let capacity = capacity.next_power_of_two();
        let large = || Box::new(rw_values::Values::new(Global, capacity));
        Values {
            small: rw_values::Values::new(Global, capacity),
            large: Values::<T>::ARE_LARGE.then(large),
        }
    }

    /// Whether values are large. The functions for large ones are for these alone.
    pub(super) const ARE_LARGE: bool = size_of::<T>() > LARGE;

    #[inline]
    fn large(&mut self) -> &mut rw_values::Values<LargeValue<T>> {
        self.large.as_mut().expect("a channel of large values")
    }

    /// Stores a value that was sent to this many receivers. Its number is greater than those before
    /// by one, or by more where sends failed in between, which had no receivers. Returns the value
    /// that it overwrites, to be dropped while no lock is held.
    #[cfg_attr(debug_assertions, inline(never))]
    #[cfg_attr(not(debug_assertions), inline(always))]
    pub(super) fn push(&mut self, number: u64, value: T, receivers: u64) -> Option<Value<T>> {
        if let Err(refused) = self.small.ready() {
            no_memory(refused)
        }
        let value = match receivers {
            1 => Value::Own(value),
            _ => Value::Shared(Arc::new(Reentrant::new(value))),
        };
        self.small.put(number, value, receivers)
    }

    /// As [`push`](Values::push), of a large value.
    #[inline(never)]
    pub(super) fn push_large(
        &mut self,
        number: u64,
        value: T,
        receivers: u64,
    ) -> Option<LargeValue<T>> {
        let values = self.large();
        values.ready().unwrap_or_else(no_memory);
        values.put(number, arc_of(Reentrant::new(value)), receivers)
    }

    /// Returns the value with this number, for a receiver that has yet to receive it.
    #[cfg_attr(debug_assertions, inline(never))]
    #[cfg_attr(not(debug_assertions), inline(always))]
    pub(super) fn receive(&mut self, number: u64) -> Value<T> {
        match self.small.receive(number) {
            Some(value) => value,
            None => self.small.value(number).share(),
        }
    }

    /// As [`receive`](Values::receive), of a large value.
    #[inline(never)]
    pub(super) fn receive_large(&mut self, number: u64) -> LargeValue<T> {
        let values = self.large();
        match values.receive(number) {
            Some(value) => value,
            None => values.value(number).clone(),
        }
    }

    /// Whether some receiver has yet to receive the newest value. If none has, none has yet to
    /// receive any value: who has an older one to receive was there when the newest was sent, and
    /// receives in order.
    #[inline]
    pub(super) fn has_unread(&self) -> bool {
        match &self.large {
            None => self.small.has_unread(),
            Some(large) => large.has_unread(),
        }
    }

    /// Removes a dropped receiver from the counts of its unread values. Returns the values that no
    /// receiver has yet to receive.
    #[inline]
    pub(super) fn drop_receiver(&mut self, unread: u64) -> Option<Unwanted<T>> {
        match unread {
            0 => None,
            _ => Some(self.remove_unread(unread)),
        }
    }

    /// As [`drop_receiver`](Values::drop_receiver), of a receiver that has yet to receive
    /// something.
    #[inline(never)]
    fn remove_unread(&mut self, unread: u64) -> Unwanted<T> {
        let mut unwanted = Unwanted::default();
        match &mut self.large {
            None => unwanted.small = self.small.leave(Global, unread).unwrap_or_else(no_memory),
            Some(large) => unwanted.large = large.leave(Global, unread).unwrap_or_else(no_memory),
        }
        unwanted
    }
}

/// Values that no receiver has yet to receive, to be dropped while no lock is held.
pub(super) struct Unwanted<T> {
    small: CoreVec<Value<T>>,
    large: CoreVec<LargeValue<T>>,
}

impl<T> Default for Unwanted<T> {
    #[inline]
    fn default() -> Unwanted<T> {
        Unwanted {
            small: CoreVec::new(Global),
            large: CoreVec::new(Global),
        }
    }
}

/// Ends the process, as a vector of std does that can't grow: the core has made the call.
#[cold]
fn no_memory<R>(NoMemory: NoMemory) -> R {
    handle_alloc_error(Layout::new::<u64>())
}

#[cfg(test)]
mod tests {
    use super::*;

    // The numbers in between are those of sends that failed, without receivers. What was sent
    // before each of them was received.
    const RUNS: [(u64, u64); 4] = [(0, 2), (4, 6), (9, 10), (20, 26)];

    #[test]
    fn values_are_found_by_their_numbers_also_where_some_are_left_out() {
        let mut values = Values::new(4);
        for (first, end) in RUNS {
            for number in first..end {
                values.push(number, number * 10, 2);
                for retained in first.max(number.saturating_sub(3))..=number {
                    assert_eq!(values.small.value(retained).share().cloned(), retained * 10);
                }
            }
            for number in first.max(end.saturating_sub(4))..end {
                assert_eq!(values.receive(number).cloned(), number * 10);
                assert_eq!(values.receive(number).cloned(), number * 10);
            }
            assert!(!values.has_unread());
        }
    }

    #[test]
    fn the_oldest_value_is_overwritten() {
        let mut values = Values::new(4);
        for number in 0..9 {
            let overwritten = values.push(number, number * 10, 2);
            let overwritten = overwritten.map(|value| value.cloned());
            let expected = number.checked_sub(4).map(|before| before * 10);
            assert_eq!(overwritten, expected, "at {number}");
        }
    }

    #[test]
    fn a_value_is_dropped_when_its_last_receiver_has_it_or_is_gone() {
        let alive = |value: &Arc<()>| Arc::strong_count(value) - 1;
        let kept: [Arc<()>; 3] = Default::default();
        let mut values = Values::new(2);
        for (number, value) in kept.iter().enumerate() {
            drop(values.push(number as u64, value.clone(), 2));
        }
        assert_eq!(kept.each_ref().map(alive), [0, 1, 1]);
        values.receive(1).cloned();
        assert!(values.has_unread());
        assert_eq!(alive(&kept[1]), 1, "the other has yet to receive it");
        assert_eq!(
            values.drop_receiver(2).map(|it| it.small.len()),
            Some(1),
            "the value 1, which the other has"
        );
        assert_eq!(kept.each_ref().map(alive), [0, 0, 1]);
        values.receive(2).cloned();
        assert!(!values.has_unread());
        assert_eq!(kept.each_ref().map(alive), [0, 0, 0]);
    }
}
