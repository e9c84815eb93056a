//! Bugs of time: a limit or a timer ends while a task that could go on is late. All of them pass
//! where nobody is late.

use super::{ended, on_one_thread};
use std::sync::Arc;
use std::sync::atomic::{AtomicU32, Ordering};
use std::time::Duration;
use tokio::sync::mpsc;
use tokio::task::yield_now;
use tokio::time::{Instant, interval, sleep, timeout, timeout_at};
use yovanelum::{broadcast, named, watch};

fn milliseconds(count: u64) -> Duration {
    Duration::from_millis(count)
}

/// A test waits for a service no longer than 40 milliseconds. The service is ready at once, where
/// it is polled in time.
pub fn ready_within_a_limit() {
    on_one_thread(async {
        let (state, mut ready) = watch::channel(0);
        let service = tokio::spawn(named("service", async move {
            yield_now().await;
            state.send(1).unwrap();
            state
        }));
        let is_ready = timeout(milliseconds(40), ready.wait_for(|state| *state == 1)).await;
        assert!(is_ready.is_ok(), "the service isn't ready");
        drop(is_ready);
        let _state = ended(service).await;
    });
}

/// A worker leaves when no job has come for 30 milliseconds. One that comes then is lost.
pub fn leaves_when_idle() {
    on_one_thread(async {
        let (jobs, mut inbox) = broadcast::channel(8);
        let _kept = jobs.subscribe();
        let worker = tokio::spawn(named("worker", async move {
            let mut done = 0;
            loop {
                tokio::select! {
                    job = inbox.recv() => match job {
                        Ok(()) => done += 1,
                        Err(_) => return done,
                    },
                    () = sleep(milliseconds(30)) => return done,
                }
            }
        }));
        let desk = tokio::spawn(named("desk", async move {
            for _ in 0..2 {
                yield_now().await;
                jobs.send(()).unwrap();
            }
        }));
        ended(desk).await;
        assert_eq!(ended(worker).await, 2);
    });
}

/// A client asks again when no answer has come for 20 milliseconds. The server then books twice.
pub fn asks_again() {
    on_one_thread(async {
        let (ask, mut asked) = mpsc::channel(4);
        let (answer, mut answers) = broadcast::channel(4);
        let server = tokio::spawn(named("server", async move {
            let mut booked = 0;
            while asked.recv().await.is_some() {
                booked += 1;
                yield_now().await;
                let _ = answer.send(booked);
            }
            booked
        }));
        let client = tokio::spawn(named("client", async move {
            loop {
                ask.send(()).await.unwrap();
                if timeout(milliseconds(20), answers.recv()).await.is_ok() {
                    return;
                }
            }
        }));
        ended(client).await;
        assert_eq!(ended(server).await, 1);
    });
}

/// What a writer has sent is flushed every 30 milliseconds. Its reader takes the first flush to be
/// the whole batch.
pub fn flushed_in_between() {
    on_one_thread(async {
        let (lines, mut inbox) = mpsc::channel(8);
        let (flush, mut flushes) = broadcast::channel(8);
        let flusher = tokio::spawn(named("flusher", async move {
            let mut ticks = interval(milliseconds(30));
            ticks.tick().await;
            let mut batch = Vec::new();
            loop {
                tokio::select! {
                    biased;
                    line = inbox.recv() => match line {
                        Some(line) => batch.push(line),
                        None => break,
                    },
                    _ = ticks.tick(), if !batch.is_empty() => {
                        flush.send(std::mem::take(&mut batch)).unwrap();
                    }
                }
            }
            if !batch.is_empty() {
                flush.send(batch).unwrap();
            }
        }));
        let writer = tokio::spawn(named("writer", async move {
            for line in 1..=3 {
                lines.send(line).await.unwrap();
                yield_now().await;
            }
        }));
        ended(writer).await;
        assert_eq!(flushes.recv().await, Ok(vec![1, 2, 3]));
        ended(flusher).await;
    });
}

/// A node beats five times, one beat behind the other. Its monitor takes it to be dead after 25
/// milliseconds without one.
pub fn taken_to_be_dead() {
    on_one_thread(async {
        let (beat, mut beats) = watch::channel(0);
        let node = tokio::spawn(named("node", async move {
            for number in 1..=5 {
                beat.send(number).unwrap();
                yield_now().await;
            }
        }));
        let monitor = tokio::spawn(named("monitor", async move {
            loop {
                match timeout(milliseconds(25), beats.changed()).await {
                    Ok(Ok(())) => (),
                    Ok(Err(_)) => return true,
                    Err(_) => return false,
                }
            }
        }));
        ended(node).await;
        assert!(
            ended(monitor).await,
            "a node that beats is taken to be dead"
        );
    });
}

/// An entry is looked up, and read a poll later. It is evicted after 15 milliseconds.
pub fn evicted_before_it_is_read() {
    on_one_thread(async {
        let (entry, rx) = watch::channel(Some(7));
        let evictor = tokio::spawn(named("evictor", async move {
            sleep(milliseconds(15)).await;
            entry.send(None).unwrap();
            entry
        }));
        let reader = tokio::spawn(named("reader", async move {
            if rx.borrow().is_none() {
                return (rx, Some(7));
            }
            yield_now().await;
            let found = *rx.borrow();
            (rx, found)
        }));
        let (_rx, found) = ended(reader).await;
        assert_eq!(found, Some(7));
        let _entry = ended(evictor).await;
    });
}

/// A debouncer publishes what has been still for 20 milliseconds. An editor types three letters
/// one behind the other, and takes the first text that is published to be whole.
pub fn published_too_early() {
    on_one_thread(async {
        let (text, mut typed) = watch::channel(String::new());
        let (publish, mut published) = broadcast::channel(8);
        let debouncer = tokio::spawn(named("debouncer", async move {
            while typed.changed().await.is_ok() {
                while let Ok(Ok(())) = timeout(milliseconds(20), typed.changed()).await {}
                let still = typed.borrow_and_update().clone();
                publish.send(still).unwrap();
            }
        }));
        let editor = tokio::spawn(named("editor", async move {
            for letter in ["a", "b", "c"] {
                text.send_modify(|text| text.push_str(letter));
                yield_now().await;
            }
        }));
        ended(editor).await;
        assert_eq!(published.recv().await, Ok("abc".to_string()));
        ended(debouncer).await;
    });
}

/// A service that is stopped has 50 milliseconds for its last jobs. One that isn't done then is
/// given up.
pub fn given_up_at_stop() {
    on_one_thread(async {
        let (jobs, mut inbox) = mpsc::channel(8);
        jobs.try_send(()).unwrap();
        jobs.try_send(()).unwrap();
        let (stop, mut stopped) = watch::channel(false);
        let done = Arc::new(AtomicU32::new(0));
        let of_worker = done.clone();
        let worker = tokio::spawn(named("worker", async move {
            while inbox.recv().await.is_some() {
                yield_now().await;
                of_worker.fetch_add(1, Ordering::Relaxed);
            }
        }));
        let service = tokio::spawn(named("service", async move {
            stopped.changed().await.unwrap();
            drop(jobs);
            let _ = timeout(milliseconds(50), worker).await;
        }));
        stop.send(true).unwrap();
        ended(service).await;
        assert_eq!(done.load(Ordering::Relaxed), 2);
    });
}

/// A leader renews its lease every ten milliseconds. Its follower takes it where it wasn't renewed
/// for 35.
pub fn two_leaders() {
    on_one_thread(async {
        let (lease, mut seen) = watch::channel(0);
        let leader = tokio::spawn(named("leader", async move {
            let mut ticks = interval(milliseconds(10));
            for term in 1..=4 {
                ticks.tick().await;
                let _ = lease.send(term);
            }
            lease
        }));
        let follower = tokio::spawn(named("follower", async move {
            for _ in 0..3 {
                if timeout(milliseconds(35), seen.changed()).await.is_err() {
                    return "it leads too";
                }
            }
            "it follows"
        }));
        let _lease = ended(leader).await;
        assert_eq!(ended(follower).await, "it follows");
    });
}

/// Two answers have one deadline between them, of 30 milliseconds.
pub fn second_answer_is_late() {
    on_one_thread(async {
        let (answer, mut answers) = broadcast::channel(4);
        let server = tokio::spawn(named("server", async move {
            for number in 1..=2 {
                yield_now().await;
                answer.send(number).unwrap();
            }
        }));
        let client = tokio::spawn(named("client", async move {
            let deadline = Instant::now() + milliseconds(30);
            let mut got = Vec::new();
            while let Ok(Ok(number)) = timeout_at(deadline, answers.recv()).await {
                got.push(number);
            }
            got
        }));
        ended(server).await;
        assert_eq!(ended(client).await, [1, 2]);
    });
}
