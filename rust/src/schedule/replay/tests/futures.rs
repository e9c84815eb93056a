//! Futures that wait before a gate, and polls that are held back there.

use super::{
    AUDIT, CLERK, JOURNAL, NAMES, PATIENT, call, gate, gate_of, gate_that_holds,
    gate_without_helper, make, make_first, ordered, poll, told,
};
use crate::channels::turns::Turns;
use std::sync::atomic::Ordering;
use std::sync::mpsc::Receiver;
use std::task::Context;
use std::thread;
use yovanelum_record::operation::Operation;

#[test]
fn a_future_is_pending_until_its_turn_and_woken_by_the_helper() {
    let gate = gate();
    let (_, waker, woken) = told();
    let mut ticket = None;
    let recv = call(AUDIT, 0, Operation::Recv, 1);
    assert!(!poll(&gate, recv, &mut ticket, &waker));
    assert!(!poll(&gate, recv, &mut ticket, &waker));
    assert_eq!(gate.entrance.lock().waiters.values().len(), 1);
    make_first(&gate, 1);
    assert_eq!(woken.recv().unwrap(), "yovanelum-replay");
    assert!(poll(&gate, recv, &mut ticket, &waker));
    assert_eq!((ticket, gate.outcome().calls_in_order()), (None, 2));
}

#[test]
fn a_future_that_is_dropped_leaves_the_gate() {
    let gate = gate();
    let (dropped, waker, _woken) = told();
    let mut ticket = None;
    let recv = call(AUDIT, 0, Operation::Recv, 1);
    assert!(!poll(&gate, recv, &mut ticket, &waker));
    gate.leave(ticket.take().unwrap());
    assert!(gate.entrance.lock().waiters.is_empty());
    make_first(&gate, 5);
    // The end wakes each task that was seen, and this may be one that goes on.
    assert_eq!(dropped.wakes.load(Ordering::SeqCst), 0);
    make(&gate, call(CLERK, 0, Operation::Drop, 0));
    assert!(gate.outcome().is_in_order());
}

#[test]
fn the_end_wakes_futures_that_the_journal_does_not_have() {
    let gate = gate();
    let (_, waker, woken) = told();
    let mut ticket = None;
    let recv = call(CLERK, 0, Operation::Recv, 5);
    assert!(!poll(&gate, recv, &mut ticket, &waker));
    make_first(&gate, 6);
    assert_eq!(woken.recv().unwrap(), "yovanelum-replay");
    assert!(poll(&gate, recv, &mut ticket, &waker));
    assert!(gate.outcome().is_in_order());
}

#[test]
fn a_poll_is_held_back_until_the_turn_of_its_actor() {
    let gate = gate_that_holds();
    let (_, waker, woken) = told();
    let context = Context::from_waker(&waker);
    // The next call of the audit may wait, so its future waits by itself. The clerk's turn has
    // come.
    assert!(!gate.holds("audit", None, &context) && !gate.holds("clerk", None, &context));
    assert!(!gate.holds("somebody else", None, &context));
    make_first(&gate, 1);
    assert!(gate.holds("clerk", None, &context) && gate.holds("clerk", None, &context));
    make(&gate, call(AUDIT, 0, Operation::Recv, 1));
    assert_eq!(woken.recv().unwrap(), "yovanelum-replay");
    assert!(!gate.holds("clerk", None, &context) && gate.holds("audit", None, &context));
}

#[test]
fn a_poll_is_held_back_for_a_while_at_most() {
    let gate = gate();
    let (_, waker, woken) = told();
    let context = Context::from_waker(&waker);
    // The turn is that of one without a name, who doesn't come. Then the others are polled.
    make_first(&gate, 3);
    assert!(gate.holds("audit", None, &context));
    assert_eq!(woken.recv().unwrap(), "yovanelum-replay");
    assert!(!gate.holds("audit", None, &context));
}

#[test]
fn a_future_that_was_dropped_is_not_polled_at_the_turn_of_its_drop() {
    let names = NAMES.replace("\"failed\"", "\"cancelled\": {\"0\": [4]}, \"failed\"");
    let gate = gate_of(JOURNAL, &names, PATIENT);
    let (_, waker, _woken) = told();
    let context = Context::from_waker(&waker);
    make_first(&gate, 5);
    assert!(gate.holds("clerk", None, &context));
    make(&gate, call(CLERK, 0, Operation::Drop, 0));
    assert!(gate.outcome().is_in_order());
}

#[test]
fn a_poll_by_which_that_of_the_turn_is_made_is_not_held_back() {
    let gate = gate();
    let (_, waker, _woken) = told();
    let context = Context::from_waker(&waker);
    make_first(&gate, 1);
    // The turn is the audit's, whose future the clerk's polls.
    assert!(!gate.holds("audit", Some("clerk"), &context));
    assert!(!gate.holds("clerk", None, &context));
    assert!(!gate.holds("audit", None, &context));
    assert!(gate.holds("clerk", None, &context));
}

/// Whether a task is woken. A machine under load may take long to do so.
fn is_woken(woken: &Receiver<String>) -> bool {
    woken.recv_timeout(PATIENT).is_ok()
}

#[test]
fn all_futures_that_wait_for_a_handle_are_woken_at_its_turn() {
    let gate = gate();
    let [(_, first, _first), (_, second, woken)] = [told(), told()];
    let recv = call(AUDIT, 0, Operation::Recv, 1);
    assert!(!poll(&gate, recv, &mut None, &first));
    let mut ticket = None;
    assert!(!poll(&gate, recv, &mut ticket, &second));
    make_first(&gate, 1);
    // The first is not polled again.
    assert!(is_woken(&woken));
    assert!(poll(&gate, recv, &mut ticket, &second));
    assert_eq!(gate.outcome().calls_in_order(), 2);
}

#[test]
fn a_future_is_woken_where_another_call_gives_the_turn_back() {
    let gate = gate();
    make_first(&gate, 1);
    let (_, waker, woken) = told();
    let (recv, mut ticket) = (call(AUDIT, 0, Operation::Recv, 1), None);
    let channel = ordered(&gate);
    let permit = channel.pass(recv, &|| false);
    assert!(!poll(&gate, recv, &mut ticket, &waker));
    drop(permit);
    assert!(is_woken(&woken));
    assert!(poll(&gate, recv, &mut ticket, &waker));
    assert_eq!(gate.outcome().calls_in_order(), 2);
}

#[test]
fn a_future_that_is_polled_again_has_waited_since_its_first_poll() {
    let gate = gate_without_helper(JOURNAL, PATIENT);
    let (_, waker, _woken) = told();
    let (recv, mut ticket) = (call(AUDIT, 0, Operation::Recv, 1), None);
    let since = || {
        let state = gate.entrance.lock();
        state.waiters.values().first().map(|waiter| waiter.since)
    };
    assert!(!poll(&gate, recv, &mut ticket, &waker));
    let first = since().unwrap();
    while gate.entrance.lock().clock.since(first).is_zero() {
        thread::yield_now();
    }
    assert!(!poll(&gate, recv, &mut ticket, &waker));
    assert_eq!(since(), Some(first));
}

#[test]
fn a_poll_that_is_let_go_is_held_back_at_the_next_turn_of_another() {
    let gate = gate_without_helper(JOURNAL, PATIENT);
    let (_, waker, _woken) = told();
    let context = Context::from_waker(&waker);
    make_first(&gate, 1);
    assert!(gate.holds("clerk", None, &context));
    // All threads sleep.
    gate.look_after_futures(&mut gate.entrance.lock(), true);
    assert!(!gate.holds("clerk", None, &context));
    make(&gate, call(AUDIT, 0, Operation::Recv, 1));
    make(&gate, call(CLERK, 1, Operation::Modify, 0));
    assert!(gate.holds("clerk", None, &context));
}

#[test]
fn a_future_past_its_last_call_is_held_back_while_it_has_a_handle() {
    let (_, waker, _woken) = told();
    let context = Context::from_waker(&waker);
    let gate = gate_without_helper(JOURNAL, PATIENT);
    make_first(&gate, 5);
    assert!(gate.holds("audit", None, &context));
    let journal = JOURNAL.replace("6 0 0 drop 0", "6 1 0 drop 1 = dropped\n7 0 0 drop 0");
    let gate = gate_without_helper(&journal, PATIENT);
    make_first(&gate, 5);
    make(&gate, call(AUDIT, 0, Operation::Drop, 1));
    assert!(!gate.holds("audit", None, &context));
}
