//! Tasks without a name on one thread. Their wakers alone tell them apart.

use super::{AUDIT, CLERK, NAMES, PATIENT, call, gate_of, make, poll, told};
use crate::channels::block_on::block_on;
use crate::schedule::replay::Gate;
use std::future::poll_fn;
use std::sync::Arc;
use std::task::{Poll, Waker};
use std::thread;
use yovanelum_record::operation::Operation;

/// The gate of three receives by one receiver, once its sender is dropped.
fn gate() -> Arc<Gate> {
    let journal = "ttd-journal 2\nbroadcast 4\nsteps\n1 0 0 drop 0 = dropped\n\
        2 1 0 recv 1 = closed\n3 1 0 recv 1 = closed\n4 1 0 recv 1 = closed\nend\n";
    let gate = gate_of(journal, NAMES, PATIENT);
    make(&gate, call(CLERK, 0, Operation::Drop, 0));
    gate
}

fn receive(gate: &Arc<Gate>, task: &Waker) {
    assert!(poll(
        gate,
        call(AUDIT, 0, Operation::Recv, 1),
        &mut None,
        task
    ));
}

/// Returns how it goes that these tasks receive, one after the other.
fn received_by(tasks: [&Waker; 3]) -> String {
    let gate = gate();
    for task in tasks {
        receive(&gate, task);
    }
    let replayed = gate.outcome();
    let text = replayed.to_string();
    assert_eq!(replayed.is_in_order(), !text.contains("several callers"));
    text
}

const ALL: &str = "all 4 calls in the recorded order";

#[test]
fn tasks_that_use_a_handle_in_turn_are_not_told_apart() {
    let [(_, first, _a), (_, second, _b)] = [told(), told()];
    assert_eq!(
        received_by([&first, &second, &first]),
        format!(
            "{ALL}; but several callers use handle 1 of `orders`, \
             and a replay can't tell them apart: give each a name of its own"
        )
    );
}

/// Runs this on a worker of tokio's runtime.
fn on_worker(run: impl FnOnce() + Send) {
    thread::scope(|scope| {
        let worker = thread::Builder::new().name("tokio-runtime-worker".to_string());
        worker.spawn_scoped(scope, run).unwrap().join().unwrap();
    });
}

#[test]
fn a_task_that_moves_from_worker_to_worker_is_one() {
    let (gate, (_, task, _woken)) = (gate(), told());
    on_worker(|| {
        receive(&gate, &task);
        on_worker(|| receive(&gate, &task));
        receive(&gate, &task);
    });
    assert_eq!(gate.outcome().to_string(), ALL);
}

#[test]
fn tasks_on_two_workers_are_not_taken_for_one() {
    let gate = gate();
    let [(_, first, _a), (_, second, _b)] = [told(), told()];
    on_worker(|| {
        receive(&gate, &first);
        on_worker(|| receive(&gate, &second));
        receive(&gate, &first);
    });
    let replayed = gate.outcome();
    assert!(!replayed.is_in_order());
    assert_eq!(
        replayed.to_string(),
        format!(
            "{ALL}; but several workers of a runtime use handle 1 of `orders`, as one task does that moves between them, \
             or several tasks: name it by `yovanelum::named`"
        )
    );
}

#[test]
fn a_handle_may_be_given_from_task_to_task() {
    let [(_, first, _a), (_, second, _b), (_, third, _c)] = [told(), told(), told()];
    for tasks in [
        [&first, &first, &first],
        [&first, &second, &second],
        [&first, &second, &third],
    ] {
        assert_eq!(received_by(tasks), ALL);
    }
}

#[test]
fn a_task_that_blocks_its_thread_meanwhile_is_still_one() {
    let (gate, (_, task, _woken)) = (gate(), told());
    receive(&gate, &task);
    block_on(poll_fn(|context| {
        receive(&gate, context.waker());
        Poll::Ready(())
    }));
    receive(&gate, &task);
    assert_eq!(gate.outcome().to_string(), ALL);
}

#[test]
fn the_wakers_of_tasks_are_given_back_at_the_end() {
    let (gate, (counted, task, _woken)) = (gate(), told());
    for _ in 0..3 {
        receive(&gate, &task);
    }
    drop(task);
    // The helper drops them.
    while Arc::strong_count(&counted) > 1 {
        std::thread::yield_now();
    }
    assert!(gate.outcome().is_in_order());
}
