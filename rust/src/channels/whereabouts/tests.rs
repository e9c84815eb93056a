use super::*;
use std::task::Waker;

fn poll(polls: &mut SeenPolls) {
    let mut context = Context::from_waker(Waker::noop());
    let polled = polls.poll_task(&mut context, |_| Poll::<()>::Pending);
    assert!(polled.is_pending());
}

#[test]
fn a_task_for_which_there_is_no_room_is_not_looked_for_before_another_ends() {
    let _recorder = Recorder::for_test(
        "a_task_for_which_there_is_no_room_is_not_looked_for_before_another_ends",
    );
    let mut known: Vec<_> = (0..MOST_TASKS).map(|_| SeenPolls::default()).collect();
    known.iter_mut().for_each(poll);
    let mut others: Vec<_> = (0..2).map(|_| SeenPolls::default()).collect();
    others.iter_mut().for_each(poll);
    let is_left_out = |polls: &SeenPolls| matches!(polls.0, Seeing::TooMany(_));
    assert!(known.iter().all(|polls| polls.task().is_some()));
    assert!(others.iter().all(is_left_out));
    drop(known.pop());
    others.iter_mut().for_each(poll);
    assert!(others[0].task().is_some() && is_left_out(&others[1]));
}

/// The wake of the only poll of the task with this number.
fn wake_of(recorder: &Recorder, number: usize) -> task::WakeNoted {
    let mut noted = recorder.0.tasks_noted().expect("tasks were seen");
    let poll = noted.tasks[number].polls.pop();
    poll.and_then(|poll| poll.woken).expect("it was woken")
}

/// Polls a task that waits, and returns the waker that it keeps.
fn waits(polls: &mut SeenPolls) -> Waker {
    let mut kept = None;
    let mut context = Context::from_waker(Waker::noop());
    let polled = polls.poll_task(&mut context, |context| {
        kept = Some(context.waker().clone());
        Poll::<()>::Pending
    });
    assert!(polled.is_pending());
    kept.unwrap()
}

#[test]
fn what_the_future_of_a_task_wakes_when_it_is_dropped_the_end_of_that_task_wakes() {
    let recorder = Recorder::for_test(
        "what_the_future_of_a_task_wakes_when_it_is_dropped_the_end_of_that_task_wakes",
    );
    let [mut audit, mut relay, mut shutdown] = [(); 3].map(|()| SeenPolls::default());
    let kept = waits(&mut audit);
    poll(&mut relay);
    let mut context = Context::from_waker(Waker::noop());
    let ended = shutdown.poll_task(&mut context, |_| Poll::Ready(()));
    assert!(ended.is_ready());
    relay.drop_future(|| kept.wake());
    let by = wake_of(&recorder, 0).by;
    assert!(matches!(by, WokenFrom::Thread(_, Some(1))));
}

#[test]
fn where_a_short_wait_ends_is_known_while_the_clock_is_paused() {
    let recorder = Recorder::for_test("where_a_short_wait_ends_is_known_while_the_clock_is_paused");
    let watched = recorder.0.watched.get().unwrap();
    watched.is_paused.store(true, Ordering::Relaxed);
    let [mut sensor, mut snapshot] = [(); 2].map(|()| SeenPolls::default());
    let kept = waits(&mut sensor);
    let mut context = Context::from_waker(Waker::noop());
    let ended = snapshot.poll_task(&mut context, |_| {
        kept.wake_by_ref();
        Poll::Ready(())
    });
    assert!(ended.is_ready());
    let woken = wake_of(&recorder, 0);
    assert!(matches!(woken.by, WokenFrom::Task(1)));
    assert!(woken.place != PlaceNumber::UNKNOWN);
}

#[test]
fn a_clock_that_is_read_by_a_thread_that_was_stopped_has_no_drift() {
    let (begun, milliseconds) = (Instant::now(), Duration::from_millis);
    let read = |clock, after, before| ClockThere {
        clock: begun + milliseconds(clock),
        after: milliseconds(after),
        before: milliseconds(before),
    };
    // Each was read somewhere within 30 milliseconds, so it may have gone on for 70 to 130.
    let first = read(0, 0, 30);
    for (there, drift) in [(70, 0), (130, 0), (69, 1000), (131, 1000), (0, 70_000)] {
        assert_eq!(read(there, 100, 130).drift_since(&first), drift, "{there}");
    }
}
