//! How much time of a test goes into looking where its tasks wait.

use crate::channels::atomic::AtomicU64;
use std::sync::atomic::Ordering;

/// How many nanoseconds are spent in any case.
const FREE: u64 = 20_000_000;

/// Which part of the time of the test is spent beyond these.
const PART: u64 = 8;

/// Once that is spent, one poll of a task in this number is looked at, until twice as much is.
const ONE_IN: u64 = 16;

/// How many nanoseconds one look costs at most. What it took longer, its thread was not run.
const MOST_OF_ONE: u64 = 100_000;

/// How many nanoseconds a wait is long. The next wait of a task whose last one was long is looked
/// at until four times as much is spent: such waits are few.
pub(super) const LONG: u64 = 1_000_000;

/// The nanoseconds that were spent.
#[derive(Default)]
pub(super) struct Budget(AtomicU64);

impl Budget {
    /// Whether it is looked where a task waits, `now` nanoseconds after the test began: in the
    /// poll of this number, after a wait of `waited` nanoseconds.
    pub(super) fn allows(&self, now: u64, poll: u64, waited: u64) -> bool {
        let spent = self.0.load(Ordering::Relaxed);
        let allowed = FREE + now / PART;
        spent < allowed
            || waited >= LONG && spent < 4 * allowed
            || poll % ONE_IN == 0 && spent < 2 * allowed
    }

    /// Notes how many `nanoseconds` one look took.
    pub(super) fn spend(&self, nanoseconds: u64) {
        let spent = nanoseconds.min(MOST_OF_ONE);
        self.0.fetch_add(spent, Ordering::Relaxed);
    }
}

#[cfg(test)]
mod tests {
    use super::*;

    #[test]
    fn a_part_of_the_time_is_spent_then_one_poll_in_sixteen_and_then_none() {
        let budget = Budget::default();
        let allowed = |budget: &Budget, now| {
            let polls = (0..32).filter(|poll| budget.allows(now, *poll, 0));
            polls.count()
        };
        let spend = |budget: &Budget, nanoseconds: u64| {
            (0..nanoseconds / MOST_OF_ONE).for_each(|_| budget.spend(MOST_OF_ONE));
        };
        assert_eq!(allowed(&budget, 0), 32);
        budget.spend(u64::MAX);
        assert_eq!(allowed(&budget, 0), 32, "a thread that is not run");
        spend(&budget, FREE - MOST_OF_ONE);
        assert_eq!(allowed(&budget, 0), 2);
        assert_eq!(allowed(&budget, PART), 32, "an eighth of the time");
        spend(&budget, FREE);
        assert_eq!(allowed(&budget, 0), 0);
        assert!(budget.allows(0, 1, LONG), "a long wait is seldom");
        assert_eq!(allowed(&budget, 2 * FREE * PART), 32);
        spend(&budget, 2 * FREE);
        assert!(!budget.allows(0, 1, LONG));
    }
}
