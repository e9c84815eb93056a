//! Gates at which the run leaves the journal's order.

use super::{
    AUDIT, CLERK, JOURNAL, NAMES, NOBODY, PATIENT, call, gate, gate_of, gate_without_helper, make,
    make_first, ordered, poll, told,
};
use crate::channels::block_on::block_on;
use crate::channels::turns::{ArrivingCall, Turns};
use std::future::poll_fn;
use std::task::{Context, Poll};
use std::thread;
use std::time::Duration;
use yovanelum_record::operation::Operation;

#[test]
fn another_call_parts_at_once() {
    let gate = gate();
    // The next call of this receiver is a receive that waits. It isn't the audit's turn, so it
    // would be patient.
    make(&gate, call(AUDIT, 0, Operation::TryRecv, 1));
    let wanted = "diverges at call 1 of 6: expected `send 0` on `orders` by `clerk` at src/shop.rs:15, \
                  came `try-recv 1` on `orders` by `audit`";
    let replayed = gate.outcome();
    assert_eq!(replayed.to_string(), wanted);
    assert!(!replayed.is_in_order() && gate.entrance.is_over());
}

#[test]
fn another_call_of_the_actor_whose_turn_it_is_parts_soon() {
    let gate = gate();
    // The journal has no such handle.
    let location = std::panic::Location::caller();
    let subscribe = ArrivingCall {
        called_at: Some(location),
        ..call(CLERK, 0, Operation::Subscribe, 7)
    };
    make(&gate, subscribe);
    let wanted = format!(
        "diverges at call 1 of 6: expected `send 0` on `orders` by `clerk` at src/shop.rs:15, \
         came `subscribe 7` on `orders` by `clerk` at {}:{}",
        location.file(),
        location.line()
    );
    assert_eq!(gate.outcome().to_string(), wanted);
}

#[test]
fn a_call_that_would_wait_at_its_turn_diverges() {
    let gate = gate();
    make_first(&gate, 1);
    let channel = ordered(&gate);
    let permit = channel.pass(call(AUDIT, 0, Operation::Recv, 1), &|| false);
    permit.unwrap().would_wait();
    let wanted = "diverges at call 2 of 6: expected `recv 1` on `orders` by `audit` at src/audit.rs:30, \
                  came the same call, which had to wait";
    assert_eq!(gate.outcome().to_string(), wanted);
}

#[test]
fn a_thread_goes_on_where_nothing_comes_for_too_long() {
    let gate = gate_of(JOURNAL, NAMES, Duration::from_millis(5));
    make(&gate, call(NOBODY, 0, Operation::Send, 0));
    let wanted = "diverges at call 1 of 6: expected `send 0` on `orders` by `clerk` at src/shop.rs:15, \
                  came nothing for 5 ms, while `send 0` on `orders` waited";
    assert_eq!(gate.outcome().to_string(), wanted);
}

#[test]
fn a_future_goes_on_where_nothing_comes_for_too_long() {
    let gate = gate_of(JOURNAL, NAMES, Duration::from_millis(5));
    let (_, waker, woken) = told();
    let mut ticket = None;
    let recv = call(AUDIT, 0, Operation::Recv, 1);
    assert!(!poll(&gate, recv, &mut ticket, &waker));
    assert_eq!(woken.recv().unwrap(), "yovanelum-replay");
    assert!(poll(&gate, recv, &mut ticket, &waker));
    let wanted = "diverges at call 1 of 6: expected `send 0` on `orders` by `clerk` at src/shop.rs:15, \
                  came nothing for 25 ms, while `recv 1` on `orders` by `audit` waited";
    assert_eq!(gate.outcome().to_string(), format!("{wanted}{NAME_TASKS}"));
}

#[test]
fn of_two_futures_the_one_that_has_waited_too_long_is_told() {
    let gate = gate_without_helper(JOURNAL, Duration::from_millis(5));
    let (_, waker, _woken) = told();
    let recv = call(AUDIT, 0, Operation::Recv, 1);
    assert!(!poll(&gate, recv, &mut None, &waker));
    let since = gate.entrance.lock().waiters.values()[0].since;
    while gate.entrance.lock().clock.since(since) < Duration::from_millis(25) {
        thread::yield_now();
    }
    // The journal has no such handle.
    let late = call(CLERK, 0, Operation::Recv, 5);
    assert!(!poll(&gate, late, &mut None, &waker));
    gate.look_after_futures(&mut gate.entrance.lock(), false);
    let wanted = "diverges at call 1 of 6: expected `send 0` on `orders` by `clerk` at src/shop.rs:15, \
                  came nothing for 25 ms, while `recv 1` on `orders` by `audit` waited";
    assert_eq!(gate.outcome().to_string(), format!("{wanted}{NAME_TASKS}"));
}

#[test]
fn a_thread_that_keeps_the_turn_away_waits_for_a_short_time() {
    let gate = gate_of(JOURNAL, NAMES, Duration::from_secs(10));
    make_first(&gate, 2);
    // The turn is the clerk's, who has called on this thread.
    make(&gate, call(AUDIT, 0, Operation::TryRecv, 1));
    let wanted = "diverges at call 3 of 6: expected `modify 0` on channel 1 by `clerk` at src/shop.rs:15, \
                  came nothing for 250 ms, while `try-recv 1` on `orders` by `audit` waited";
    assert_eq!(gate.outcome().to_string(), wanted);
}

#[test]
fn a_call_is_no_call_of_the_same_handle_of_another_channel() {
    let journal = "ttd-journal 2\nbroadcast 4\nbroadcast 4\nsteps\n\
        1 0 0 send 0 0 = sent 1\n2 0 1 send 0 0 = sent 1\nend\n";
    let gate = gate_of(journal, NAMES, Duration::from_millis(5));
    make(&gate, call(CLERK, 1, Operation::Send, 0));
    let wanted = "diverges at call 1 of 2: expected `send 0` on `orders` by `clerk` at src/shop.rs:15, \
                  came `send 0` on channel 1 by `clerk`";
    assert_eq!(gate.outcome().to_string(), wanted);
}

/// What is said where tasks have no names.
const NAME_TASKS: &str = "; tasks without a name make calls, and a replay can't hold back their polls: write \
    `tokio::spawn(yovanelum::named(\"clerk\", ..))` for each, and `yovanelum::named(\"test\", async { .. }).await` \
    for the test's body, and record again";

#[test]
fn tasks_of_the_journal_that_have_no_name_are_told() {
    let (tasks, named) = ("\"task 7\"", "\"unnamed\": [2]");
    let of_tasks = NAMES.replace("\"ThreadId(7)\"", tasks);
    let of_a_thread = of_tasks.replace(named, "\"unnamed\": []");
    for (names, wanted) in [
        (of_tasks.as_str(), NAME_TASKS),
        (NAMES, ""),
        (&of_a_thread, ""),
    ] {
        let gate = gate_of(JOURNAL, names, PATIENT);
        make_first(&gate, 1);
        let said = gate.outcome().to_string();
        assert_eq!(
            said,
            format!(
                "ended before call 2 of 6: `recv 1` on `orders` by `audit` at src/audit.rs:30{wanted}"
            )
        );
        make(&gate, call(AUDIT, 0, Operation::TryRecv, 1));
        let said = gate.outcome().to_string();
        let wanted = format!(", came `try-recv 1` on `orders` by `audit`{wanted}");
        assert!(said.ends_with(&wanted), "{said}");
    }
}

#[test]
fn a_caller_without_a_name_on_a_thread_of_named_tasks_is_told() {
    let (_, waker, _woken) = told();
    let gate = gate();
    assert!(!gate.holds("clerk", None, &Context::from_waker(&waker)));
    make_first(&gate, 1);
    make(&gate, call(AUDIT, 0, Operation::TryRecv, 1));
    let said = gate.outcome().to_string();
    assert!(said.ends_with(NAME_TASKS), "{said}");
    // A thread that is blocked on a future runs no other.
    let gate = self::gate();
    let is_held = block_on(poll_fn(|context| {
        Poll::Ready(gate.holds("clerk", None, context))
    }));
    make_first(&gate, 1);
    make(&gate, call(AUDIT, 0, Operation::TryRecv, 1));
    let said = gate.outcome().to_string();
    assert!(!is_held && said.ends_with(" by `audit`"), "{said}");
}

#[test]
fn a_question_that_leaves_no_entry_is_told() {
    let gate = gate();
    let location = std::panic::Location::caller();
    gate.note_question(ArrivingCall {
        called_at: Some(location),
        ..call(CLERK, 0, Operation::SenderLen, 0)
    });
    make(&gate, call(CLERK, 0, Operation::Subscribe, 0));
    let wanted = format!(
        "diverges at call 1 of 6: expected `send 0` on `orders` by `clerk` at src/shop.rs:15, came `subscribe 0` on `orders` \
         by `clerk`; before that came `sender-len 0` on `orders` by `clerk` at {}:{}, and after `quiet_questions()` no \
         replay orders what it returns",
        location.file(),
        location.line()
    );
    assert_eq!(gate.outcome().to_string(), wanted);
}

#[test]
fn the_question_of_the_caller_that_does_not_come_is_told() {
    let gate = gate_of(JOURNAL, NAMES, Duration::from_millis(5));
    gate.note_question(call(CLERK, 0, Operation::ReceiverCount, 0));
    gate.note_question(call(AUDIT, 0, Operation::ReceiverLen, 1));
    make(&gate, call(NOBODY, 0, Operation::Send, 0));
    let wanted = "came nothing for 5 ms, while `send 0` on `orders` waited; before that came `receiver-count 0` on \
                  `orders` by `clerk`, and after `quiet_questions()` no replay orders what it returns";
    let replayed = gate.outcome().to_string();
    assert!(replayed.ends_with(wanted), "{replayed}");
}

#[test]
fn a_question_that_the_journal_lacks_is_told() {
    let lacking = NAMES.replace("\"failed\"", "\"quiet\": true, \"failed\"");
    for (names, wanted) in [
        (
            lacking.as_str(),
            "; the journal lacks the questions after `quiet_questions()`",
        ),
        (NAMES, ""),
    ] {
        let gate = gate_of(JOURNAL, names, Duration::from_secs(600));
        make(&gate, call(AUDIT, 0, Operation::ReceiverLen, 1));
        let wanted = format!("came `receiver-len 1` on `orders` by `audit`{wanted}");
        let replayed = gate.outcome().to_string();
        assert!(replayed.ends_with(&wanted), "{replayed}");
    }
}

/// It is neither in the journal nor in the names.
const STRANGER: usize = 5;

#[test]
fn a_caller_that_the_journal_does_not_have_is_told_by_its_place() {
    let location = std::panic::Location::caller();
    let at = format!("{}:{}", location.file(), location.line());
    let send = ArrivingCall {
        called_at: Some(location),
        ..call(STRANGER, 0, Operation::Send, 0)
    };
    let gate = gate_of(JOURNAL, NAMES, Duration::from_millis(5));
    make(&gate, send);
    let wanted = format!(
        "while `send 0` on `orders` by a caller that the journal doesn't have at {at} waited"
    );
    let replayed = gate.outcome().to_string();
    assert!(replayed.ends_with(&wanted), "{replayed}");
}

#[test]
fn a_drop_that_has_no_place_is_told_by_that_of_its_callers_last_call() {
    let location = std::panic::Location::caller();
    let at = format!("{}:{}", location.file(), location.line());
    // A helper would tell that a receive has waited too long, where this thread doesn't run.
    let gate = gate_without_helper(JOURNAL, Duration::from_millis(5));
    let (_, waker, _woken) = told();
    let mut ticket = None;
    // Its first call is elsewhere.
    let first = std::panic::Location::caller();
    for called_at in [first, location] {
        let recv = ArrivingCall {
            called_at: Some(called_at),
            ..call(STRANGER, 0, Operation::Recv, 7)
        };
        assert!(!poll(&gate, recv, &mut ticket, &waker));
        gate.leave(ticket.take().unwrap());
    }
    make(&gate, call(STRANGER, 0, Operation::Drop, 7));
    let wanted = format!(
        "while `drop 7` on `orders` by a caller that the journal doesn't have, whose last call was at {at} waited{NAME_TASKS}"
    );
    let replayed = gate.outcome().to_string();
    assert!(replayed.ends_with(&wanted), "{replayed}");
}
