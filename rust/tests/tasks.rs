//! Tasks of a runtime that have no name, told apart by their numbers. A program of its own, since
//! `set_task_id` is for a process.

mod support;

use std::cell::Cell;
use std::future::Future;
use std::pin::Pin;
use std::sync::Arc;
use std::task::{Context, Waker};
use std::{fs, thread};
use support::accepted;
use support::named::{locations, member};
use yovanelum::{Recorder, broadcast, named, set_task_id, watch};

thread_local! {
    static TASK: Cell<Option<u64>> = const { Cell::new(None) };
}

type Task = Pin<Box<dyn Future<Output = ()> + Send>>;

/// Polls tasks in turns on this thread until all have ended. The first has the number 1.
fn run(tasks: Vec<Task>) {
    set_task_id(|| TASK.get());
    let mut running: Vec<_> = (1..).zip(tasks).collect();
    while !running.is_empty() {
        running.retain_mut(|(number, task)| {
            TASK.set(Some(*number));
            let polled = task.as_mut().poll(&mut Context::from_waker(Waker::noop()));
            TASK.set(None);
            polled.is_pending()
        });
    }
}

/// The actors of a journal's entries.
fn actors(recorder: &Recorder) -> Vec<u64> {
    let journal = recorder.journal().unwrap();
    let entries = journal.lines().filter(|line| line.contains(" = "));
    entries
        .map(|line| line.split(' ').nth(1).unwrap().parse().unwrap())
        .collect()
}

/// Runs a test on a thread with a name.
fn on_thread(name: &str, test: impl FnOnce() + Send + 'static) {
    let thread = thread::Builder::new().name(name.into()).spawn(test);
    thread.unwrap().join().unwrap();
}

#[test]
fn three_tasks_of_one_thread_are_told_apart() {
    on_thread("runtime", || {
        let recorder = Recorder::new();
        let _entered = recorder.enter();
        let (tx, mut rx) = broadcast::channel(4);
        let (state, mut state_rx) = watch::channel(0);
        tx.send(1).unwrap();
        let line = line!();
        let receives: Task = Box::pin(async move {
            assert_eq!(rx.recv().await, Ok(1));
            assert_eq!(rx.recv().await, Ok(2));
        });
        let waits: Task = Box::pin(async move {
            assert!(state_rx.wait_for(|state| *state == 2).await.is_ok());
        });
        let sends: Task = Box::pin(async move {
            state.send(2).unwrap();
            tx.send(2).unwrap();
        });
        run(vec![receives, waits, sends]);
        let names = recorder.names();
        let wanted = r#"{"0": "runtime", "1": "task 1", "2": "task 2", "3": "task 3"}"#;
        assert_eq!(member(&names, "actors"), wanted);
        // Each with the line of its first call.
        let locations = locations(&names);
        let of_line = |line| {
            let wanted = (file!().to_string(), line);
            locations
                .iter()
                .position(|location| *location == wanted)
                .unwrap()
        };
        let first = [of_line(line + 2), of_line(line + 6), of_line(line + 9)];
        let tasks = format!(
            r#"{{"1": {}, "2": {}, "3": {}}}"#,
            first[0], first[1], first[2]
        );
        assert_eq!(member(&names, "tasks"), tasks);
        // The send before; the first receive; the look; the two sends and the two drops; then the
        // second receive and its drop, and of the other task the change, the look and the drop.
        let of_receiver = [1, 1];
        let of_worker = [2, 2, 2];
        let wanted = [&[0, 1, 2, 3, 3, 3, 3][..], &of_receiver, &of_worker].concat();
        assert_eq!(actors(&recorder), wanted);
        accepted(&recorder, "tasks");
    });
}

#[test]
fn a_named_future_in_a_task_has_its_name() {
    on_thread("runtime", || {
        let recorder = Recorder::new();
        let _entered = recorder.enter();
        let bus = broadcast::Sender::<u8>::new(4);
        let sends = |bus: broadcast::Sender<u8>| async move { drop(bus.send(1)) };
        let clerk: Task = Box::pin(named("clerk", sends(bus.clone())));
        let outer = bus.clone();
        let mixed: Task = Box::pin(async move {
            let _ = outer.send(2);
            named("inner", sends(outer.clone())).await;
            let _ = outer.send(3);
        });
        run(vec![clerk, mixed]);
        let wanted = r#"{"0": "runtime", "1": "clerk", "2": "task 2", "3": "inner"}"#;
        assert_eq!(member(&recorder.names(), "actors"), wanted);
        // Of the thread are the drop of receiver 1 and two clones. Then come the send and the drop
        // of each.
        let of_mixed = [2, 2, 3, 3, 2, 2];
        assert_eq!(
            actors(&recorder),
            [&[0, 0, 0, 1, 1][..], &of_mixed].concat()
        );
    });
}

#[test]
fn a_task_has_its_number_on_each_thread_that_it_runs_on() {
    set_task_id(|| TASK.get());
    let recorder = Recorder::new();
    let _entered = recorder.enter();
    let bus = broadcast::Sender::<u8>::new(4);
    let send = |name: &str, task: u64, bus: &broadcast::Sender<u8>| {
        let bus = bus.clone();
        on_thread(name, move || {
            TASK.set(Some(task));
            let _ = bus.send(1);
        });
    };
    send("one", 7, &bus);
    send("other", 7, &bus);
    send("one", 8, &bus);
    let names = recorder.names();
    let actors = member(&names, "actors");
    assert!(
        actors.ends_with(r#""1": "task 7", "2": "task 8"}"#),
        "{actors}"
    );
}

#[test]
fn a_task_after_the_32nd_is_recorded_by_the_name_of_its_thread() {
    on_thread("runtime", || {
        let recorder = Recorder::new();
        let _entered = recorder.enter();
        let bus = broadcast::Sender::<u8>::new(4);
        let task = |_| {
            let bus = bus.clone();
            Box::pin(async move { drop(bus.send(1)) }) as Task
        };
        run((0..40).map(task).collect());
        on_thread("service", move || drop(bus));
        let names = recorder.names();
        let of_tasks: Vec<_> = (1..=32)
            .map(|task| format!(r#""{task}": "task {task}""#))
            .collect();
        let wanted = format!(
            r#"{{"0": "runtime", {}, "33": "service"}}"#,
            of_tasks.join(", ")
        );
        assert_eq!(member(&names, "actors"), wanted);
        // Each task sends, and drops its sender.
        let tasks = (1..=32).chain([0; 8]).flat_map(|actor| [actor, actor]);
        let wanted: Vec<_> = [0; 41].into_iter().chain(tasks).chain([33]).collect();
        assert_eq!(actors(&recorder), wanted);
        accepted(&recorder, "many-tasks");
    });
}

#[test]
fn a_replay_sees_that_tasks_share_a_sender() {
    on_thread("runtime", || {
        let made_at = line!() + 3;
        let two_sends = |recorder: &Recorder| {
            let _entered = recorder.enter();
            let bus = Arc::new(broadcast::Sender::<u8>::new(4));
            let task = |_| {
                let bus = bus.clone();
                Box::pin(async move { drop(bus.send(1)) }) as Task
            };
            run((0..2).map(task).collect());
        };
        let path = support::temporary::path("shared.journal");
        let recorder = Recorder::new();
        two_sends(&recorder);
        recorder.save(&path).unwrap();
        let recorder = Recorder::replay(&path).unwrap();
        two_sends(&recorder);
        let replayed = recorder.replayed().unwrap();
        assert!(!replayed.is_in_order());
        assert_eq!(
            replayed.to_string(),
            format!(
                "all 4 calls in the recorded order; but several callers use handle 0 of the channel of {}:{made_at}, \
                 and a replay can't tell them apart: give each a name of its own",
                file!()
            )
        );
        fs::remove_file(path.with_extension("names")).unwrap();
        fs::remove_file(&path).unwrap();
    });
}
