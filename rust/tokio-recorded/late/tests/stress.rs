//! Tasks that wait and wake each other without end, while a test's recorder sees them: none is
//! forgotten, and no memory is kept. The variable `STRESS_ROUNDS` has them go on for longer.

use std::sync::Arc;
use std::time::Duration;
use tokio::sync::{Mutex, Notify, Semaphore, broadcast, mpsc, oneshot};
use yovanelum::Recorder;

const TASKS: u32 = 1_000;

/// How many rounds there are.
fn count() -> u32 {
    std::env::var("STRESS_ROUNDS").map_or(200, |rounds| rounds.parse().unwrap())
}

/// How many kilobytes of memory the process has.
fn memory() -> u64 {
    let status = std::fs::read_to_string("/proc/self/status").unwrap();
    let line = status.lines().find_map(|line| line.strip_prefix("VmRSS:"));
    line.unwrap()
        .trim()
        .trim_end_matches(" kB")
        .parse()
        .unwrap()
}

/// Each round has wakes by a queue, a lock, a permit, a notification, an answer, a task that ends,
/// and a channel of yovanelum.
async fn rounds(count: u32) {
    let (there, mut here) = mpsc::channel::<oneshot::Sender<u32>>(1);
    let (orders, mut received) = broadcast::channel(4);
    let (lock, slots, bell) = (
        Arc::new(Mutex::new(0)),
        Arc::new(Semaphore::new(1)),
        Arc::new(Notify::new()),
    );
    let (own_lock, own_slots, rung) = (lock.clone(), slots.clone(), bell.clone());
    let clerk = tokio::spawn(async move {
        let mut answered = 0;
        while let Some(answer) = here.recv().await {
            *own_lock.lock().await += 1;
            let _slot = own_slots.acquire().await.unwrap();
            tokio::task::yield_now().await;
            answer.send(answered).unwrap();
            orders.send(answered).unwrap();
            rung.notify_one();
            answered += 1;
        }
        answered
    });
    for round in 0..count {
        let (answer, answered) = oneshot::channel();
        there.send(answer).await.unwrap();
        *lock.lock().await += 1;
        drop(slots.acquire().await.unwrap());
        assert_eq!(tokio::spawn(answered).await.unwrap(), Ok(round));
        assert_eq!(received.recv().await, Ok(round));
        bell.notified().await;
    }
    drop(there);
    assert_eq!(clerk.await.unwrap(), count);
    assert_eq!(*lock.lock().await, 2 * count);
}

/// Runs this, and fails if it hangs.
fn run_to_the_end(workers: usize, future: impl Future<Output = ()> + Send + 'static) {
    let runtime = tokio::runtime::Builder::new_multi_thread()
        .worker_threads(workers)
        .enable_all()
        .build()
        .unwrap();
    let done = runtime.block_on(async {
        tokio::time::timeout(Duration::from_secs(1_200), tokio::spawn(future)).await
    });
    done.expect("a task that is woken").unwrap();
}

#[test]
fn no_wake_is_lost_on_one_worker_or_two() {
    let _recorder = Recorder::for_test("no_wake_is_lost");
    for workers in [1, 2] {
        run_to_the_end(workers, async {
            let tasks: Vec<_> = (0..8).map(|_| tokio::spawn(rounds(count()))).collect();
            for task in tasks {
                task.await.unwrap();
            }
        });
    }
}

#[test]
fn memory_stays_flat_with_a_thousand_tasks() {
    let _recorder = Recorder::for_test("memory_stays_flat");
    run_to_the_end(2, async {
        let bells: Vec<_> = (0..TASKS)
            .map(|_| (Arc::new(Notify::new()), Arc::new(Notify::new())))
            .collect();
        let tasks = bells.iter().cloned().map(|(ring, rung)| {
            tokio::spawn(async move {
                loop {
                    ring.notified().await;
                    rung.notify_one();
                }
            })
        });
        let tasks: Vec<_> = tasks.collect();
        let mut least = u64::MAX;
        for round in 0..count() {
            for (ring, _) in &bells {
                ring.notify_one();
            }
            for (_, rung) in &bells {
                rung.notified().await;
            }
            if round == 100 {
                least = memory();
            }
        }
        // What is kept of tasks is full after fifty rounds.
        assert!(memory() < least + 4_096, "{} after {least} kB", memory());
        tasks.iter().for_each(|task| task.abort());
    });
}
