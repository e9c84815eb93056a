//! The time of a task, in stretches: it is polled, then it waits until it is woken, and then it is
//! ready until it is polled again.

use yovanelum_record::listed::PushAll;
use yovanelum_record::sidecar::SeenTask;

/// What a task does.
#[derive(Clone, Copy, Debug, PartialEq, Eq)]
pub(super) enum TaskDoing {
    /// It is polled.
    Polled,
    /// It waits after a poll.
    Waited,
    /// It was woken after a poll, and isn't polled yet.
    Ready,
}

/// A stretch of the time of a task.
#[derive(Clone, Copy, Debug, PartialEq, Eq)]
pub(super) struct Stretch {
    pub(super) doing: TaskDoing,
    /// The index of the poll that it is, or after which it is.
    pub(super) index: usize,
    /// Calls that were made meanwhile have stamps above the first, and up to the second. That is
    /// the greatest of all where it hasn't ended.
    pub(super) from: u64,
    pub(super) to: u64,
    /// When it began and ended, and for how long it was. Times are microseconds.
    pub(super) times: (u64, u64),
    pub(super) time: u64,
}

impl Stretch {
    fn new(doing: TaskDoing, index: usize, (from, to): (u64, u64), times: (u64, u64)) -> Stretch {
        Stretch {
            doing,
            index,
            from,
            to,
            times,
            time: times.1.saturating_sub(times.0),
        }
    }

    /// Whether a call with a stamp of this window may have been made meanwhile.
    fn is_within(&self, (after, to): (u64, u64)) -> bool {
        self.from.max(after) < self.to.min(to)
    }
}

/// Returns the stretches from the poll with this index up to the next one. `now` is when all this
/// was noted.
fn from_poll(task: &SeenTask, index: usize, now: u64) -> Vec<Stretch> {
    let poll = &task.polls[index];
    let end = poll.end.unwrap_or(now);
    let polled = (poll.before, poll.last());
    let polled = Stretch::new(TaskDoing::Polled, index, polled, (poll.begin, end));
    // A task that is over waits no more.
    let is_last = index + 1 == task.polls.len();
    let is_after = poll.end.is_some() && !(is_last && task.is_over);
    let next = task.polls.get(index + 1);
    let (to, until) = next.map_or((u64::MAX, now), |next| (next.before, next.begin));
    let woken = poll.woken.as_ref();
    let (woken_stamp, woken_at) = woken.map_or((to, until), |it| (it.stamp, it.at));
    let woken_stamp = woken_stamp.clamp(poll.after, to);
    let woken_at = woken_at.clamp(end, until.max(end));
    let after = poll.after;
    let waited = Stretch::new(
        TaskDoing::Waited,
        index,
        (after, woken_stamp),
        (end, woken_at),
    );
    let ready = (woken_stamp, to);
    let ready = Stretch::new(TaskDoing::Ready, index, ready, (woken_at, until));
    match woken {
        _ if !is_after => vec![polled],
        None => vec![polled, waited],
        Some(_) => vec![polled, waited, ready],
    }
}

/// Returns the stretches in which a call with a stamp of this window may have been made.
pub(super) fn within(task: &SeenTask, window: (u64, u64), now: u64) -> Vec<Stretch> {
    let first = task.polls.partition_point(|poll| poll.before <= window.0);
    let first = first.saturating_sub(1);
    let mut stretches = vec![];
    for index in first..task.polls.len() {
        if task.polls[index].before >= window.1 {
            break;
        }
        let all = from_poll(task, index, now);
        let all = all.iter().filter(|stretch| stretch.is_within(window));
        stretches.push_all(all.copied());
    }
    stretches
}

/// Returns the stretch in which the call with this stamp would be made.
pub(super) fn at(task: &SeenTask, stamp: u64, now: u64) -> Option<Stretch> {
    let next = task.polls.partition_point(|poll| poll.before < stamp);
    let stretches = from_poll(task, next.checked_sub(1)?, now);
    let mut stretches = stretches.iter().copied();
    stretches.rfind(|it| it.from < stamp && stamp <= it.to)
}

#[cfg(test)]
mod tests {
    use super::*;
    use yovanelum_record::sidecar::{SeenPoll, SeenWake, WokenBy};

    // When it begins and ends, the stamps before and after it, and when and at which stamp it is
    // woken.
    type Times = (u64, Option<u64>, u64, u64, Option<(u64, u64)>);

    fn task(polls: [Times; 3]) -> SeenTask {
        let polls = polls.map(|(begin, end, before, after, woken)| SeenPoll {
            begin,
            end,
            before,
            after,
            woken: woken.map(|(at, stamp)| SeenWake {
                at,
                stamp,
                by: WokenBy::Timer,
                place: None,
                kept_at: None,
            }),
            ..SeenPoll::default()
        });
        SeenTask {
            polls: polls.into(),
            ..SeenTask::default()
        }
    }

    #[test]
    fn a_task_is_polled_waits_is_ready_and_is_polled_again() {
        let task = task([
            (10, Some(20), 0, 2, Some((70, 6))),
            (90, Some(95), 8, 9, None),
            (99, None, 12, 12, None),
        ]);
        let seen = |window| {
            let all = within(&task, window, 200).into_iter();
            all.map(|it| (it.doing, it.index, it.from, it.to, it.time))
                .collect::<Vec<_>>()
        };
        let [polled, waited, ready] = [TaskDoing::Polled, TaskDoing::Waited, TaskDoing::Ready];
        let all = [
            (polled, 0, 0, 2, 10),
            (waited, 0, 2, 6, 50),
            (ready, 0, 6, 8, 20),
            (polled, 1, 8, 9, 5),
            (waited, 1, 9, 12, 4),
            (polled, 2, 12, u64::MAX, 101),
        ];
        assert_eq!(seen((0, 100)), all);
        assert_eq!(seen((3, 7)), all[1..3]);
        assert_eq!(seen((8, 9)), all[3..4]);
        assert_eq!(seen((12, 13)), all[5..]);
        let doing = |stamp| at(&task, stamp, 200).map(|it| (it.doing, it.index));
        let found = [1, 2, 3, 6, 7, 9, 10].map(doing);
        let wanted = [
            (polled, 0),
            (polled, 0),
            (waited, 0),
            (waited, 0),
            (ready, 0),
            (polled, 1),
            (waited, 1),
        ];
        assert_eq!(found, wanted.map(Some));
    }

    #[test]
    fn a_task_that_is_over_waits_no_more() {
        let mut task = task([
            (10, Some(20), 0, 2, None),
            (30, Some(40), 3, 4, None),
            (50, Some(60), 5, 6, Some((70, 7))),
        ]);
        assert_eq!(at(&task, 9, 100).map(|it| it.doing), Some(TaskDoing::Ready));
        task.is_over = true;
        assert_eq!(at(&task, 9, 100), None);
    }
}
