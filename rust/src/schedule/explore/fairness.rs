//! Whoever may go on is passed over a bounded number of times in a row, by time and by others. So
//! no loop of a right program has others wait forever, whatever an order prefers.

use super::chooser::Candidate;
use super::run::is_fair;
use super::stand::Stand;
use std::sync::Arc;
use yovanelum_record::listed::Keep;

/// How often one who stands is passed over since it came.
#[derive(Clone, Copy, Default)]
pub(super) struct PassedOver {
    pub(super) by_time: u32,
    pub(super) by_polls: u32,
}

/// How often one is passed over at most.
#[derive(Clone, Copy)]
struct Bounds {
    by_time: u32,
    by_polls: u32,
    /// How many polls of one task come in a row, while another one stands.
    in_a_row: u32,
}

/// The bounds of a run. What a task does between two of its polls isn't counted: it may send any
/// number of values.
const USUAL: Bounds = Bounds {
    by_time: 3,
    by_polls: 500,
    in_a_row: 16,
};

/// Those of a run that is tried again since it had no end.
const IN_TURN: Bounds = Bounds {
    by_time: 0,
    by_polls: 4,
    in_a_row: 1,
};

/// Who was let go in a row.
pub(super) struct Fairness {
    bounds: Bounds,
    last: Option<Arc<str>>,
    in_a_row: u32,
}

impl Fairness {
    /// That of the run of this process.
    pub(super) fn of_run() -> Fairness {
        Fairness {
            bounds: if is_fair() { IN_TURN } else { USUAL },
            last: None,
            in_a_row: 0,
        }
    }

    /// Notes that this one goes on, perhaps by a poll of it, and whether another one could have.
    pub(super) fn chose(&mut self, who: &Arc<str>, is_poll: bool, had_others: bool) {
        if self.last.as_ref() != Some(who) || !had_others {
            self.last = Some(who.clone());
            self.in_a_row = 0;
        }
        self.in_a_row += u32::from(is_poll);
    }

    /// Whether one who stands was passed over by time so often that time doesn't pass before it.
    pub(super) fn forbids_time(&self, stand: &Stand) -> bool {
        stand.passed_over.by_time >= self.bounds.by_time
    }

    /// Keeps those who may go on: whoever was passed over too often goes before the others, and one
    /// whose polls came in a row has others go before it.
    pub(super) fn keep_fair(&self, candidates: &mut Vec<Candidate>) {
        let is_late = |one: &Candidate| one.passed_over.by_polls >= self.bounds.by_polls;
        if candidates.iter().any(is_late) {
            candidates.keep(is_late);
        }
        let goes_round = |one: &Candidate| {
            self.in_a_row >= self.bounds.in_a_row && self.last.as_ref() == Some(&one.who)
        };
        let is_other = |one: &Candidate| !goes_round(one) && one.number != Candidate::TIME;
        if candidates.iter().any(goes_round) && candidates.iter().any(is_other) {
            candidates.keep(|one| !goes_round(one));
        }
    }
}

#[cfg(test)]
mod tests {
    use super::super::schedule::What;
    use super::*;

    fn candidates(who: &str) -> Vec<Candidate> {
        let candidate = |name: char| Candidate {
            who: name.to_string().into(),
            what: What::Poll,
            number: u64::from(name),
            passed_over: PassedOver::default(),
        };
        who.chars().map(candidate).collect()
    }

    fn names(candidates: &[Candidate]) -> String {
        candidates.iter().map(|one| &*one.who).collect()
    }

    #[test]
    fn a_task_that_goes_round_lets_others_go_before_it() {
        let mut fairness = Fairness::of_run();
        let a: Arc<str> = "a".into();
        for _ in 0..USUAL.in_a_row {
            let mut all = candidates("ab");
            fairness.keep_fair(&mut all);
            assert_eq!(names(&all), "ab");
            fairness.chose(&a, true, true);
        }
        let mut all = candidates("ab");
        fairness.keep_fair(&mut all);
        assert_eq!(names(&all), "b");
        // Where nobody else stands, it goes on.
        let mut alone = candidates("a");
        fairness.keep_fair(&mut alone);
        assert_eq!(names(&alone), "a");
        fairness.chose(&"b".into(), true, true);
        let mut all = candidates("ab");
        fairness.keep_fair(&mut all);
        assert_eq!(names(&all), "ab");
    }

    #[test]
    fn who_was_passed_over_too_often_goes_before_the_others() {
        let fairness = Fairness::of_run();
        let mut all = candidates("abc");
        all[1].passed_over.by_polls = USUAL.by_polls - 1;
        fairness.keep_fair(&mut all);
        assert_eq!(names(&all), "abc");
        all[1].passed_over.by_polls += 1;
        fairness.keep_fair(&mut all);
        assert_eq!(names(&all), "b");
    }

    #[test]
    fn calls_within_a_poll_are_not_counted() {
        let mut fairness = Fairness::of_run();
        let a: Arc<str> = "a".into();
        (0..1000).for_each(|_| fairness.chose(&a, false, true));
        let mut all = candidates("ab");
        fairness.keep_fair(&mut all);
        assert_eq!(names(&all), "ab");
    }
}
