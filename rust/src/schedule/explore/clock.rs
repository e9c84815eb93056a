//! The clock of a run that is explored, by which the timers of the package that stands for tokio
//! end. It goes on while everybody waits, and where time is chosen. While others are held or run it
//! stands still, so that no timer ends since a run is slow.

use super::threads::SOON;
use std::mem;
use std::task::Waker;
use std::time::{Duration, Instant};
use yovanelum_record::listed::{IntoList, Keep};
use yovanelum_record::sorting::sort_by_key;

/// How much time passes at most between two looks at those who wait. On a busy machine the looks
/// are rarer than that.
const COUNTED_BETWEEN_LOOKS: Duration = Duration::from_millis(20);

/// Which part of a long timer choices may let pass.
const PART_BY_CHOICE: u32 = 4;

/// The resolution of tokio's timers.
const RESOLUTION: Duration = Duration::from_millis(1);

/// How many deadlines are known again.
const DEADLINES_KEPT: usize = 4096;

/// The clock, with the timers that are set.
#[derive(Default)]
pub(super) struct TestClock {
    now: Duration,
    /// How much of it passed by choice.
    chosen: Duration,
    timers: Vec<SetTimer>,
    next_number: u64,
    /// When deadlines come by this clock, which were seen before. They are of the machine's clock,
    /// and in its order.
    deadlines: Vec<(Instant, Duration)>,
    /// Since when everybody waits, and after how many moves.
    waits_since: Option<(u64, Instant)>,
    /// How long a thread has run since this move, as far as that is counted.
    ran: (u64, Duration),
}

/// A timer that hasn't ended.
struct SetTimer {
    number: u64,
    due: Duration,
    /// How much time may pass by choice before choices have taken too much of it.
    most_chosen: Duration,
    /// What waits for it.
    waker: Option<Waker>,
}

/// Returns how much time choices may let pass beside a timer of this length. One that they can't
/// let end has some time left: what they hold for that long, and takes the rest, ends before it.
fn most_by_choice(length: Duration) -> Duration {
    if length <= SOON {
        return SOON;
    }
    SOON.max(length / PART_BY_CHOICE) - RESOLUTION
}

impl TestClock {
    pub(super) fn now(&self) -> Duration {
        self.now
    }

    /// Returns when a deadline comes that isn't one of a timer before. One that was seen before
    /// comes when it was to come then: the machine's clock has gone on since, and this one hasn't.
    pub(super) fn due(&mut self, deadline: Instant) -> Duration {
        let left = deadline.saturating_duration_since(Instant::now());
        if self.deadlines.len() >= DEADLINES_KEPT {
            self.deadlines.clear();
        }
        let found = (self.deadlines).binary_search_by(|(known, _)| known.cmp(&deadline));
        let place = found.unwrap_or_else(|place| {
            self.deadlines.insert(place, (deadline, self.now + left));
            place
        });
        let (_, due) = self.deadlines[place];
        due
    }

    /// Sets a timer, and returns its number.
    pub(super) fn set(&mut self, due: Duration) -> u64 {
        let number = self.next_number;
        self.next_number += 1;
        let length = due.saturating_sub(self.now);
        self.timers.push(SetTimer {
            number,
            due,
            most_chosen: self.chosen + most_by_choice(length),
            waker: None,
        });
        number
    }

    /// Removes a timer. Returns what waited for it.
    pub(super) fn remove(&mut self, number: u64) -> Option<Waker> {
        let mut timers = self.timers.iter();
        let index = timers.position(|timer| timer.number == number)?;
        self.timers.swap_remove(index).waker
    }

    /// Whether a timer has ended. Else `waker` waits for it, in the place of the one that this
    /// returns.
    pub(super) fn wait(&mut self, number: u64, waker: Waker) -> (bool, Option<Waker>) {
        let now = self.now;
        let mut timers = self.timers.iter_mut();
        match timers.find(|timer| timer.number == number) {
            Some(timer) if timer.due > now => (false, timer.waker.replace(waker)),
            _ => (true, Some(waker)),
        }
    }

    /// Returns in how much time the first timer ends that is waited for.
    pub(super) fn next(&self) -> Option<Duration> {
        let waited = self.timers.iter().filter(|timer| timer.waker.is_some());
        let due = waited.map(|timer| timer.due).min()?;
        Some(due.saturating_sub(self.now))
    }

    /// Returns how much time a choice lets pass, if it may let the next timer end: it comes soon,
    /// and choices don't take too much of any timer.
    pub(super) fn offered(&self) -> Option<Duration> {
        let next = self.next().filter(|next| *next <= SOON)?;
        let chosen = self.chosen + next;
        let mut running = self.timers.iter().filter(|timer| timer.due > self.now);
        running
            .all(|timer| chosen <= timer.most_chosen)
            .then_some(next)
    }

    /// Returns how much time passed by choice.
    pub(super) fn chosen(&self) -> Duration {
        self.chosen
    }

    /// Goes on to this time, as a schedule says.
    pub(super) fn go_to(&mut self, time: Duration) {
        self.now = self.now.max(time);
    }

    /// Notes that time was let pass.
    pub(super) fn pass(&mut self, time: Duration) {
        self.now += time;
        self.chosen += time;
    }

    /// Notes that everybody waits, and nobody can be let go, after this many moves. The clock stops
    /// at the next timer, so that what waits for it is never late since looks are rare.
    pub(super) fn everybody_waits(&mut self, moves: u64, at: Instant) {
        match self.waits_since {
            Some((before, since)) if before == moves => {
                let passed = at.saturating_duration_since(since);
                let most = self.next().unwrap_or(Duration::MAX);
                self.now += passed.min(COUNTED_BETWEEN_LOOKS).min(most);
            }
            _ => (),
        }
        self.waits_since = Some((moves, at));
    }

    /// Notes that somebody runs, or can be let go.
    pub(super) fn somebody_goes_on(&mut self) {
        self.waits_since = None;
    }

    /// Notes that a thread runs on and on, while nobody can be let go. It has run for so long since
    /// this move.
    pub(super) fn one_runs_on(&mut self, moves: u64, ran: Duration) {
        self.waits_since = None;
        let counted = match self.ran {
            (before, counted) if before == moves => counted,
            _ => ran.min(COUNTED_BETWEEN_LOOKS),
        };
        self.now += ran.saturating_sub(counted);
        self.ran = (moves, ran.max(counted));
    }

    /// Takes the wakers of those timers that have ended.
    pub(super) fn ended(&mut self) -> Vec<Waker> {
        let now = self.now;
        let mut due: Vec<&mut SetTimer> = self.timers.iter_mut().listed();
        due.keep(|timer| timer.due <= now && timer.waker.is_some());
        sort_by_key(&mut due, |timer| (timer.due, timer.number));
        due.iter_mut()
            .filter_map(|timer| timer.waker.take())
            .listed()
    }

    /// Takes the wakers of all timers, which end by another clock from now on.
    pub(super) fn leave(&mut self) -> Vec<Waker> {
        let mut timers = mem::take(&mut self.timers);
        let timers = timers.iter_mut();
        timers.filter_map(|timer| timer.waker.take()).listed()
    }
}

#[cfg(test)]
mod tests {
    use super::*;

    const fn milliseconds(count: u64) -> Duration {
        Duration::from_millis(count)
    }

    /// A clock with a timer of this many milliseconds that is waited for, and its number.
    fn waited(clock: &mut TestClock, count: u64) -> u64 {
        let number = clock.set(clock.now() + milliseconds(count));
        let (has_ended, _) = clock.wait(number, Waker::noop().clone());
        assert_eq!(has_ended, count == 0);
        number
    }

    #[test]
    fn a_timer_ends_where_everybody_waits_as_long() {
        let (mut clock, start) = (TestClock::default(), Instant::now());
        waited(&mut clock, 50);
        clock.everybody_waits(1, start);
        clock.everybody_waits(1, start + milliseconds(15));
        assert_eq!(clock.next(), Some(milliseconds(35)));
        // The machine was busy, so nobody has looked for a while.
        clock.everybody_waits(1, start + milliseconds(10_000));
        assert_eq!(clock.now(), milliseconds(35));
        assert!(clock.ended().is_empty());
        clock.everybody_waits(1, start + milliseconds(20_000));
        assert_eq!(clock.ended().len(), 1);
        assert_eq!(clock.next(), None);
    }

    #[test]
    fn no_timer_is_late_since_looks_are_rare() {
        let (mut clock, start) = (TestClock::default(), Instant::now());
        for count in 1..=5 {
            let number = waited(&mut clock, 7);
            clock.everybody_waits(count, start);
            clock.everybody_waits(count, start + milliseconds(20));
            assert_eq!(clock.ended().len(), 1);
            clock.remove(number);
        }
        assert_eq!(clock.now(), milliseconds(35));
    }

    #[test]
    fn the_clock_stands_still_while_somebody_goes_on() {
        let (mut clock, start) = (TestClock::default(), Instant::now());
        clock.everybody_waits(1, start);
        // Something has moved in between.
        clock.everybody_waits(2, start + milliseconds(10));
        clock.somebody_goes_on();
        clock.everybody_waits(2, start + milliseconds(20));
        assert_eq!(clock.now(), Duration::ZERO);
    }

    #[test]
    fn a_thread_that_computes_takes_the_time_that_it_runs() {
        let mut clock = TestClock::default();
        clock.one_runs_on(1, milliseconds(13));
        clock.one_runs_on(1, milliseconds(40));
        assert_eq!(clock.now(), milliseconds(27));
        clock.one_runs_on(2, milliseconds(13));
        assert_eq!(clock.now(), milliseconds(27));
    }

    #[test]
    fn choices_let_short_timers_end_and_take_little_of_a_long_one() {
        let mut clock = TestClock::default();
        let long = waited(&mut clock, 400);
        for _ in 0..3 {
            let tick = waited(&mut clock, 30);
            assert_eq!(clock.offered(), Some(milliseconds(30)));
            clock.pass(milliseconds(30));
            assert_eq!(clock.ended().len(), 1);
            clock.remove(tick);
        }
        // A quarter of 400 is 100.
        waited(&mut clock, 30);
        assert_eq!(clock.offered(), None);
        clock.remove(long);
        assert_eq!(clock.offered(), Some(milliseconds(30)));
    }

    #[test]
    fn what_was_held_and_takes_three_quarters_of_a_limit_ends_before_it() {
        let mut clock = TestClock::default();
        waited(&mut clock, 200);
        let quarter = waited(&mut clock, 50);
        assert_eq!(clock.offered(), None);
        clock.remove(quarter);
        waited(&mut clock, 49);
        assert_eq!(clock.offered(), Some(milliseconds(49)));
    }

    #[test]
    fn a_long_timer_is_never_let_end() {
        let mut clock = TestClock::default();
        waited(&mut clock, 51);
        assert_eq!(clock.offered(), None);
    }

    #[test]
    fn a_deadline_comes_when_it_was_to_come_first() {
        let mut clock = TestClock::default();
        let deadline = Instant::now() + milliseconds(400);
        let due = clock.due(deadline);
        clock.pass(milliseconds(10));
        assert!(due <= milliseconds(400));
        assert_eq!(clock.due(deadline), due);
    }
}
