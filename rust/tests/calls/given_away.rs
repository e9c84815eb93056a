//! Numbers of actors, which are given to others once nobody needs them: each recorded call still
//! has the name of who made it.

use std::collections::HashMap;
use std::future::Future;
use std::pin::{Pin, pin};
use std::sync::atomic::{AtomicBool, Ordering};
use std::task::{Context, Poll, Waker};
use std::thread;
use yovanelum::{Recorder, block_on, broadcast, named};

/// Returns the names of a table of the file of names, by number. Each is between quotes.
fn table(names: &str, key: &str) -> HashMap<u64, String> {
    let start = names.find(&format!("\"{key}\": {{")).expect("the table");
    let line = names[start..].lines().next().unwrap();
    let mut words = line.split('"').skip(3).step_by(2);
    let mut table = HashMap::new();
    while let (Some(number), Some(name)) = (words.next(), words.next()) {
        table.insert(number.parse().unwrap(), name.to_string());
    }
    table
}

/// Returns the caller's name and the channel's, of each send of a journal.
fn senders(recorder: &Recorder) -> Vec<(String, String)> {
    let (journal, names) = (recorder.journal().unwrap(), recorder.names());
    let (actors, channels) = (table(&names, "actors"), table(&names, "channels"));
    let sends = journal.lines().filter(|line| line.contains(" send "));
    let words = sends.map(|line| line.split(' ').collect::<Vec<_>>());
    let number = |word: &str| word.parse::<u64>().unwrap();
    words
        .map(|words| {
            let (actor, channel) = (number(words[1]), number(words[2]));
            (actors[&actor].clone(), channels[&channel].clone())
        })
        .collect()
}

/// Creates a channel of this name, and sends on it. The names of the channel and of who sends are
/// the same in these tests.
fn send_on(recorder: &Recorder, name: &str) {
    let (tx, _rx) = broadcast::channel(1);
    recorder.name(&tx, name);
    tx.send(1).unwrap();
}

#[test]
fn each_of_many_tasks_has_its_own_name_as_long_as_its_calls_are_stored() {
    let recorder = Recorder::new();
    let _entered = recorder.enter();
    for request in 0..1000 {
        let name = format!("request {request}");
        block_on(named(&name, async { send_on(&recorder, &name) }));
    }
    let senders = senders(&recorder);
    // A run has 64 channels: these are of the last requests. Two tasks at most have shared a number
    // while all were taken.
    assert_eq!(senders.len(), 64);
    let right = senders.iter().filter(|(actor, channel)| actor == channel);
    assert!(right.count() >= 62, "{senders:?}");
    let last = &senders[63];
    assert_eq!((&*last.0, &*last.1), ("request 999", "request 999"));
}

#[test]
#[cfg_attr(target_family = "wasm", ignore = "WebAssembly has no threads")]
fn a_number_of_a_thread_without_a_name_is_named_once_it_is_given_to_another() {
    let recorder = Recorder::new();
    let _entered = recorder.enter();
    thread::scope(|scope| {
        let without_name = scope.spawn(|| {
            let _entered = recorder.enter();
            send_on(&recorder, "nobody's");
        });
        without_name.join().unwrap();
    });
    assert!(recorder.names().contains("\"unnamed\": ["));
    for request in 0..300 {
        let name = format!("request {request}");
        block_on(named(&name, async { send_on(&recorder, &name) }));
    }
    let names = recorder.names();
    assert!(!names.contains("\"unnamed\""), "{names}");
}

/// Polls a future once.
fn poll(future: Pin<&mut impl Future<Output = ()>>) -> Poll<()> {
    future.poll(&mut Context::from_waker(Waker::noop()))
}

#[test]
fn a_task_that_is_alive_keeps_its_number() {
    let recorder = Recorder::new();
    let _entered = recorder.enter();
    let is_woken = AtomicBool::new(false);
    let mut alive = pin!(named("alive", async {
        send_on(&recorder, "alive");
        std::future::poll_fn(|_| {
            if is_woken.load(Ordering::Relaxed) {
                Poll::Ready(())
            } else {
                Poll::Pending
            }
        })
        .await;
        send_on(&recorder, "alive");
    }));
    assert!(poll(alive.as_mut()).is_pending());
    for request in 0..300 {
        let name = format!("request {request}");
        block_on(named(&name, async { send_on(&recorder, &name) }));
    }
    let before = senders(&recorder);
    assert!(
        before.iter().all(|(actor, _)| actor != "alive"),
        "its channel has left the run"
    );
    is_woken.store(true, Ordering::Relaxed);
    assert!(poll(alive.as_mut()).is_ready());
    assert_eq!(senders(&recorder)[63].0, "alive");
}

#[test]
#[cfg_attr(target_family = "wasm", ignore = "WebAssembly has no threads")]
fn threads_that_come_and_go_have_their_names_while_a_journal_is_read() {
    let recorder = Recorder::new();
    let is_over = AtomicBool::new(false);
    thread::scope(|scope| {
        let reader = scope.spawn(|| {
            while !is_over.load(Ordering::Relaxed) {
                // Each is read under the reader's own names.
                if !recorder.is_empty() {
                    recorder.journal().unwrap();
                    recorder.names();
                }
            }
        });
        for round in 0..100 {
            let workers = (0..4).map(|worker| {
                let name = format!("worker {round} {worker}");
                let recorder = &recorder;
                let builder = thread::Builder::new().name(name.clone());
                let work = move || {
                    let _entered = recorder.enter();
                    send_on(recorder, &name);
                };
                builder.spawn_scoped(scope, work).unwrap()
            });
            let workers: Vec<_> = workers.collect();
            workers
                .into_iter()
                .for_each(|worker| worker.join().unwrap());
        }
        is_over.store(true, Ordering::Relaxed);
        reader.join().unwrap();
    });
    let senders = senders(&recorder);
    assert_eq!(senders.len(), 64);
    // None has a name that isn't its own, but the last number, which several may share.
    let wrong = senders.iter().filter(|(actor, channel)| actor != channel);
    assert!(
        wrong.clone().all(|(actor, _)| actor.ends_with(" others")),
        "{senders:?}"
    );
}
