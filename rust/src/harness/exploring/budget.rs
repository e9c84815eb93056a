//! How long a session takes: its search, and what is made of a failing order.

use std::sync::OnceLock;
use std::time::{Duration, Instant};

/// How long a failing order is worked on where no time is given.
const AFTER_FIND: Duration = Duration::from_secs(30);

/// Which part of the time that is given is left for a failing order, and how much at most.
const PART_AFTER_FIND: u32 = 3;
const LONGEST_AFTER_FIND: Duration = Duration::from_secs(20);

/// The time of a session.
pub(super) struct SessionBudget {
    began: Instant,
    given: Option<Duration>,
    found: OnceLock<Instant>,
}

impl SessionBudget {
    /// A session that begins now, and is given this time.
    pub(super) fn new(given: Option<Duration>) -> SessionBudget {
        SessionBudget {
            began: Instant::now(),
            given,
            found: OnceLock::new(),
        }
    }

    /// Returns how long the session has taken.
    pub(super) fn elapsed(&self) -> Duration {
        self.began.elapsed()
    }

    /// Whether no further run of the search begins.
    pub(super) fn is_search_over(&self) -> bool {
        self.given.is_some_and(|given| {
            let rest = (given / PART_AFTER_FIND).min(LONGEST_AFTER_FIND);
            self.elapsed() >= given.saturating_sub(rest)
        })
    }

    /// Notes that a run has failed, and the search is over.
    pub(super) fn note_found(&self) {
        let _ = self.found.set(Instant::now());
    }

    /// Returns when all has to be over, if that is known.
    pub(super) fn end(&self) -> Option<Instant> {
        let given = self.given.map(|given| self.began + given);
        given.or_else(|| Some(*self.found.get()? + AFTER_FIND))
    }

    /// Returns until when what is made of a failing order may go on that is over after so many
    /// hundredths of the time for it.
    pub(super) fn until(&self, hundredths: u32) -> Instant {
        let found = self.found.get().copied().unwrap_or_else(Instant::now);
        let end = self.end().unwrap_or(found + AFTER_FIND);
        found + end.saturating_duration_since(found) * hundredths / 100
    }
}

#[cfg(test)]
mod tests {
    use super::*;

    const fn seconds(count: u64) -> Duration {
        Duration::from_secs(count)
    }

    #[test]
    fn a_third_of_the_time_is_left_for_a_failing_order() {
        let mut budget = SessionBudget::new(Some(seconds(30)));
        assert!(!budget.is_search_over());
        budget.began -= seconds(21);
        assert!(budget.is_search_over());
        assert_eq!(budget.end(), Some(budget.began + seconds(30)));
        // Of much time, a smaller part.
        let mut budget = SessionBudget::new(Some(seconds(600)));
        budget.began -= seconds(570);
        assert!(!budget.is_search_over());
        budget.began -= seconds(11);
        assert!(budget.is_search_over());
    }

    #[test]
    fn without_a_time_a_failing_order_has_some() {
        let budget = SessionBudget::new(None);
        assert_eq!(budget.end(), None);
        budget.note_found();
        let found = *budget.found.get().unwrap();
        assert_eq!(budget.end(), Some(found + AFTER_FIND));
        assert_eq!(budget.until(50), found + AFTER_FIND / 2);
    }
}
