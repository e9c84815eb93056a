//! Flaky programs of tasks, recorded and replayed, on runtimes of one thread and of several: each
//! gives again the result that its journal is of, whatever the scheduler does meanwhile. Each task
//! has a name, and so has what runs the test.
//!
//! `YOVANELUM_FREE_RUNS=200 YOVANELUM_REPLAYS=100 cargo test --release --test replay --
//! --nocapture` prints how often each fails.

#[path = "../../tests/replay/harness.rs"]
mod harness;
#[path = "../../tests/support/mod.rs"]
mod support;

use harness::{replays, tells_the_truth};
use std::fmt::Debug;
use std::future::Future;
use std::sync::Arc;
use std::time::Duration;
use std::{env, fs, process, thread};
use support::{Random, in_time};
use tokio::runtime::{Builder, Runtime};
use tokio::sync::Mutex;
use tokio::task::{JoinHandle, yield_now};
use tokio::time::sleep;
use yovanelum::broadcast::error::RecvError;
use yovanelum::{Recorder, Replayed, broadcast, named, watch};

type Outcome = Result<(), String>;

/// Pauses of a task, which differ from seed to seed.
struct Pauses(Random);

impl Pauses {
    fn new(seed: u64, name: &str) -> Pauses {
        let number: u64 = name.bytes().map(u64::from).sum();
        Pauses(Random::new(seed * 4096 + number))
    }

    /// Pends once, and then for a while. How often a task pends is the same in each run, and how
    /// long isn't.
    async fn pause(&mut self) {
        yield_now().await;
        match self.0.below(3) {
            0 => {}
            1 => thread::sleep(Duration::from_micros(self.0.below(60) as u64)),
            n => sleep(Duration::from_millis(self.0.below(n + 1) as u64)).await,
        }
    }
}

fn workers(recorder: &Recorder, count: usize) -> Runtime {
    let mut builder = Builder::new_multi_thread();
    builder.worker_threads(count).enable_all();
    builder.on_thread_start(recorder.on_thread_start());
    builder.build().unwrap()
}

fn one_thread() -> Runtime {
    Builder::new_current_thread().enable_all().build().unwrap()
}

/// Runs a test on a runtime, under the name of its root.
fn run<F: Future<Output = Outcome>>(recorder: &Recorder, runtime: &Runtime, test: F) -> Outcome {
    let _entered = recorder.enter();
    runtime.block_on(named("root", test))
}

fn spawn<F>(name: &str, task: F) -> JoinHandle<F::Output>
where
    F: Future<Output: Send> + Send + 'static,
{
    tokio::spawn(named(name, task))
}

fn check<T: PartialEq + Debug>(found: T, wanted: T) -> Outcome {
    if found == wanted {
        Ok(())
    } else {
        Err(format!("{found:?} and not {wanted:?}"))
    }
}

async fn all_of<T: Clone>(rx: &mut broadcast::Receiver<T>) -> Vec<Result<T, RecvError>> {
    let mut all = vec![];
    loop {
        match rx.recv().await {
            Err(RecvError::Closed) => return all,
            received => all.push(received),
        }
    }
}

/// A clerk takes what comes first of two channels.
async fn choices(seed: u64) -> Outcome {
    let (orders, mut order_rx) = broadcast::channel(8);
    let (refunds, mut refund_rx) = broadcast::channel(8);
    for (name, tx, from) in [("shop", orders, 100), ("desk", refunds, 200)] {
        spawn(name, async move {
            let mut pauses = Pauses::new(seed, name);
            for number in from..from + 4 {
                pauses.pause().await;
                tx.send(number).unwrap();
            }
        });
    }
    let clerk = spawn("clerk", async move {
        let mut pauses = Pauses::new(seed, "clerk");
        let mut done = vec![];
        for _ in 0..8 {
            pauses.pause().await;
            tokio::select! {
                Ok(order) = order_rx.recv() => done.push(order),
                Ok(refund) = refund_rx.recv() => done.push(refund),
                else => break,
            }
        }
        done
    });
    let done = clerk.await.unwrap();
    if done[0] < 200 {
        Ok(())
    } else {
        Err(format!("{done:?}"))
    }
}

fn a_select_on_two_workers(recorder: &Recorder, seed: u64) -> Outcome {
    run(recorder, &workers(recorder, 2), choices(seed))
}

fn a_select_on_one_thread(recorder: &Recorder, seed: u64) -> Outcome {
    run(recorder, &one_thread(), choices(seed))
}

/// Everyone sends to everyone, over a channel that is too small.
async fn crowd(seed: u64, count: usize) -> Outcome {
    let (bus, log) = broadcast::channel(8);
    drop(log);
    let guests: Vec<_> = (0..count)
        .map(|number| {
            let (bus, mut heard) = (bus.clone(), bus.subscribe());
            let name = format!("guest {number}");
            let pauses = Pauses::new(seed, &name);
            spawn(&name, async move {
                let mut pauses = pauses;
                for word in 0..2 {
                    pauses.pause().await;
                    bus.send((number, word)).unwrap();
                }
                drop(bus);
                pauses.pause().await;
                all_of(&mut heard).await
            })
        })
        .collect();
    drop(bus);
    let mut heard = vec![];
    for guest in guests {
        heard.push(guest.await.unwrap());
    }
    match heard[0].iter().flatten().next() {
        Some((first, _)) if *first < count / 2 => Ok(()),
        _ => Err(format!("{heard:?}")),
    }
}

fn a_crowd_on_four_workers(recorder: &Recorder, seed: u64) -> Outcome {
    run(recorder, &workers(recorder, 4), crowd(seed, 12))
}

fn a_crowd_on_two_workers(recorder: &Recorder, seed: u64) -> Outcome {
    run(recorder, &workers(recorder, 2), crowd(seed, 6))
}

fn a_crowd_on_one_thread(recorder: &Recorder, seed: u64) -> Outcome {
    run(recorder, &one_thread(), crowd(seed, 6))
}

/// Workers wait for a state of a watch that is overwritten soon.
async fn states(seed: u64) -> Outcome {
    let (state, rx) = watch::channel(0);
    let waiting: Vec<_> = ["first", "second", "third"]
        .into_iter()
        .map(|name| {
            let mut rx = rx.clone();
            spawn(name, async move {
                Pauses::new(seed, name).pause().await;
                let found = *rx.wait_for(|state| *state >= 2).await.unwrap();
                found
            })
        })
        .collect();
    drop(rx);
    let owner = spawn("owner", async move {
        let mut pauses = Pauses::new(seed, "owner");
        for now in 1..=4 {
            pauses.pause().await;
            state.send_modify(|state| *state = now);
        }
        state.closed().await;
    });
    let mut found = vec![];
    for task in waiting {
        found.push(task.await.unwrap());
    }
    owner.await.unwrap();
    if found.contains(&4) {
        Ok(())
    } else {
        Err(format!("{found:?}"))
    }
}

fn states_on_two_workers(recorder: &Recorder, seed: u64) -> Outcome {
    run(recorder, &workers(recorder, 2), states(seed))
}

fn states_on_one_thread(recorder: &Recorder, seed: u64) -> Outcome {
    run(recorder, &one_thread(), states(seed))
}

/// Named futures of one `join!` share a thread, and a channel.
async fn joined(seed: u64) -> Outcome {
    let (bus, mut log) = broadcast::channel(16);
    let say = |name: &'static str| {
        let bus = bus.clone();
        named(name, async move {
            let mut pauses = Pauses::new(seed, name);
            for word in 0..3 {
                pauses.pause().await;
                bus.send((name, word)).unwrap();
            }
        })
    };
    tokio::join!(say("a"), say("b"), say("c"));
    drop(bus);
    let said = all_of(&mut log).await;
    if said[0] == Ok(("a", 0)) {
        Ok(())
    } else {
        Err(format!("{said:?}"))
    }
}

fn named_futures_of_one_join(recorder: &Recorder, seed: u64) -> Outcome {
    run(recorder, &one_thread(), joined(seed))
}

/// The runtime ends while tasks still send.
fn a_runtime_that_ends_in_mid_run(recorder: &Recorder, seed: u64) -> Outcome {
    let runtime = workers(recorder, 2);
    let (bus, mut log) = {
        let _entered = recorder.enter();
        broadcast::channel(64)
    };
    let test = async {
        let mut tasks = vec![];
        for name in ["ticker", "clock"] {
            let bus = bus.clone();
            tasks.push(spawn(name, async move {
                let mut pauses = Pauses::new(seed, name);
                for tick in 0..20 {
                    pauses.pause().await;
                    yield_now().await;
                    bus.send((name, tick)).unwrap();
                }
            }));
        }
        drop(bus);
        let mut first = vec![];
        for _ in 0..3 {
            first.push(log.recv().await.unwrap());
        }
        check(first[0].0, "ticker")
    };
    let result = run(recorder, &runtime, test);
    drop(runtime);
    result
}

/// When a runtime ends isn't in a journal. So a task may be dropped before a call that it has made
/// there, and that is said.
#[test]
fn a_runtime_that_ends_in_mid_run_is_replayed_or_parts() {
    in_time(|| {
        tells_the_truth(
            "a_runtime_that_ends_in_mid_run",
            a_runtime_that_ends_in_mid_run,
        )
    });
}

/// The line that creates the channel of the two tasks.
const TURNS_MADE_AT: u32 = line!() + 7;

/// Two tasks of one thread take turns at a receiver, each of three times, or each has one of its
/// own.
fn turns(recorder: &Recorder, is_shared: bool) -> Replayed {
    let _entered = recorder.enter();
    one_thread().block_on(async {
        let (bus, first) = broadcast::channel(8);
        let first = Arc::new(Mutex::new(first));
        let second = if is_shared {
            first.clone()
        } else {
            Arc::new(Mutex::new(bus.subscribe()))
        };
        for number in 0..6 {
            bus.send(number).unwrap();
        }
        let tasks = [first, second].map(|rx| {
            tokio::spawn(async move {
                for _ in 0..3 {
                    rx.lock().await.recv().await.unwrap();
                    yield_now().await;
                }
            })
        });
        for task in tasks {
            task.await.unwrap();
        }
    });
    recorder.replayed().unwrap_or_else(|| {
        let path = env::temp_dir().join(format!("turns-{is_shared}-{}.journal", process::id()));
        recorder.save(&path).unwrap();
        let replayed = turns(&Recorder::replay(&path).unwrap(), is_shared);
        fs::remove_file(path.with_extension("names")).unwrap();
        fs::remove_file(&path).unwrap();
        replayed
    })
}

/// A task without a name is known by its waker alone.
#[test]
fn tasks_without_a_name_that_take_turns_at_a_receiver_are_not_told_apart() {
    in_time(|| {
        let own = turns(&Recorder::new(), false);
        assert!(own.is_in_order(), "{own}");
        let shared = turns(&Recorder::new(), true);
        assert!(!shared.is_in_order());
        assert_eq!(
            shared.to_string(),
            format!(
                "all 14 calls in the recorded order; but several callers use handle 1 of the channel of {}:{TURNS_MADE_AT}, \
                 and a replay can't tell them apart: give each a name of its own",
                file!()
            )
        );
    });
}

/// A test of each program.
macro_rules! tests {
    ($($name:ident)*) => {
        $(mod $name {
            #[test]
            fn replays() {
                super::in_time(|| super::replays(stringify!($name), super::$name));
            }
        })*
    };
}

tests! {
    a_select_on_two_workers
    a_select_on_one_thread
    a_crowd_on_four_workers
    a_crowd_on_two_workers
    a_crowd_on_one_thread
    states_on_two_workers
    states_on_one_thread
    named_futures_of_one_join
}
