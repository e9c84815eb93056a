//! Tasks that nobody named are known by where they come from: the place that spawns one, as which
//! of those that its caller has spawned there, and that caller. So a replay finds them again.

use std::future::Future;
use std::pin::Pin;
use std::sync::{Arc, Mutex};
use std::{env, fs, process, thread};
use tokio::runtime::{Builder, Handle, Runtime};
use tokio::sync::{broadcast, oneshot};
use tokio::task::{self, JoinSet, LocalSet};
use yovanelum::{named, Recorder};

/// Returns the names of a run's actors, by their numbers.
fn actors(recorder: &Recorder) -> Vec<String> {
    let names = recorder.names();
    let line = names.lines().find(|line| line.starts_with("  \"actors\""));
    let entries = line
        .unwrap()
        .split_once(": ")
        .unwrap()
        .1
        .trim_end_matches(',');
    let entries = entries.trim_matches(['{', '}']).split("\", \"");
    let name = |entry: &str| {
        entry
            .split_once("\": \"")
            .unwrap()
            .1
            .trim_matches('"')
            .to_string()
    };
    entries.map(name).collect()
}

/// Asserts that a run has these actors, and no others but the thread of the test.
fn assert_actors(recorder: &Recorder, wanted: &[String]) {
    let mut found = actors(recorder);
    found.retain(|name| Some(name.as_str()) != thread::current().name());
    found.sort();
    let mut wanted = wanted.to_vec();
    wanted.sort();
    assert_eq!(found, wanted);
}

/// Returns the name of a task that is spawned in this line, with what follows.
fn task_of(line: u32, rest: &str) -> String {
    format!("task of {}:{line}{rest}", file!())
}

/// A future that sends once.
fn send(bus: &broadcast::Sender<u32>) -> impl Future<Output = ()> + Send + 'static {
    let bus = bus.clone();
    async move { drop(bus.send(1)) }
}

#[tokio::test(flavor = "multi_thread", worker_threads = 2)]
async fn each_way_to_spawn_gives_a_name() {
    let recorder = Recorder::for_test("each_way_to_spawn");
    let (bus, _audit) = broadcast::channel(64);
    let first = line!() + 1;
    task::spawn(send(&bus)).await.unwrap();
    Handle::current().spawn(send(&bus)).await.unwrap();
    let mut set = JoinSet::new();
    set.spawn(send(&bus));
    set.spawn_on(send(&bus), &Handle::current());
    set.join_all().await;
    let sender = bus.clone();
    task::spawn_blocking(move || sender.send(1))
        .await
        .unwrap()
        .unwrap();
    let sender = bus.clone();
    Handle::current()
        .spawn_blocking(move || sender.send(1))
        .await
        .unwrap()
        .unwrap();
    let lines = [0, 1, 3, 4, 7, 13];
    assert_actors(&recorder, &lines.map(|line| task_of(first + line, "")));
}

#[test]
fn so_do_a_runtime_and_the_tasks_of_one_thread() {
    let recorder = Recorder::for_test("a_runtime_and_one_thread");
    let runtime = Runtime::new().unwrap();
    let (bus, _audit) = broadcast::channel(64);
    let first = line!() + 1;
    let spawned = runtime.spawn(send(&bus));
    let handed = runtime.handle().spawn(send(&bus));
    let blocking = runtime.spawn_blocking({
        let bus = bus.clone();
        move || bus.send(1).unwrap()
    });
    let local = LocalSet::new();
    local.spawn_local(send(&bus));
    local.block_on(&runtime, async {
        task::spawn_local(send(&bus)).await.unwrap();
        let mut set = JoinSet::new();
        set.spawn_local(send(&bus));
        set.spawn_local_on(send(&bus), &local);
        while set.join_next().await.is_some() {}
        spawned.await.unwrap();
        handed.await.unwrap();
        blocking.await.unwrap();
    });
    let lines = [0, 1, 2, 7, 9, 11, 12];
    assert_actors(&recorder, &lines.map(|line| task_of(first + line, "")));
}

#[tokio::test]
async fn a_name_says_which_one_of_its_place_it_is_and_who_spawns_it() {
    let recorder = Recorder::for_test("which_one_and_by_whom");
    let (bus, _audit) = broadcast::channel(64);
    let spawn_two = |bus: &broadcast::Sender<u32>| {
        let sends = [send(bus), send(bus)];
        async move {
            for send in sends {
                tokio::spawn(send).await.unwrap();
            }
        }
    };
    let inner = line!() - 4;
    for _ in 0..2 {
        tokio::spawn(spawn_two(&bus)).await.unwrap();
    }
    let outer = line!() - 2;
    tokio::spawn(named("clerk", spawn_two(&bus))).await.unwrap();
    spawn_two(&bus).await;
    let outer = [
        format!(":{outer}"),
        format!(":{outer} 2"),
        "clerk".to_string(),
    ];
    let by = outer
        .iter()
        .flat_map(|by| ["", " 2"].map(|nth| task_of(inner, &format!("{nth} by {by}"))));
    let wanted: Vec<_> = by
        .chain(["", " 2"].map(|nth| task_of(inner, nth)))
        .collect();
    assert_actors(&recorder, &wanted);
}

/// Spawns a task in a task, to this `depth`. The innermost sends.
fn nested(bus: broadcast::Sender<u32>, depth: u32) -> Pin<Box<dyn Future<Output = ()> + Send>> {
    Box::pin(async move {
        match depth {
            0 => drop(bus.send(1)),
            _ => tokio::spawn(nested(bus, depth - 1)).await.unwrap(),
        }
    })
}

/// Whether this is the name of a task that has none, as `task 17`.
fn is_number(name: &str) -> bool {
    let number = name.strip_prefix("task ");
    number.is_some_and(|number| number.parse::<u64>().is_ok())
}

#[tokio::test]
async fn the_fifth_task_in_another_has_no_name() {
    for (depth, is_named) in [(4, true), (5, false)] {
        let recorder = Recorder::for_test("nested");
        let (bus, _audit) = broadcast::channel(64);
        nested(bus, depth).await;
        let names = actors(&recorder);
        assert!(
            names.iter().any(|name| name.matches(" by :").count() == 3) == is_named,
            "{names:?}"
        );
        assert!(
            names.iter().any(|name| is_number(name)) != is_named,
            "{names:?}"
        );
    }
}

#[tokio::test(flavor = "multi_thread", worker_threads = 2)]
async fn what_a_thread_without_a_name_spawns_has_none() {
    let recorder = Recorder::for_test("threads_spawn");
    let (bus, _audit) = broadcast::channel(64);
    let line = line!() + 9;
    for name in [None, Some("loader")] {
        let (follow, runtime, sends) = (recorder.on_thread_start(), Handle::current(), send(&bus));
        let thread = match name {
            Some(name) => thread::Builder::new().name(String::from(name)),
            None => thread::Builder::new(),
        };
        let thread = thread.spawn(move || {
            follow();
            runtime.spawn(sends)
        });
        let spawned = thread.unwrap().join().unwrap();
        spawned.await.unwrap();
    }
    let (numbers, others): (Vec<_>, Vec<_>) = actors(&recorder)
        .into_iter()
        .partition(|name| is_number(name));
    assert_eq!(numbers.len(), 1, "{numbers:?}");
    assert!(others.contains(&task_of(line, " by loader")), "{others:?}");
}

#[tokio::test]
async fn of_many_tasks_32_are_actors_of_their_own() {
    let recorder = Recorder::for_test("many_tasks");
    let (bus, _audit) = broadcast::channel(64);
    for _ in 0..40 {
        tokio::spawn(send(&bus)).await.unwrap();
    }
    tokio::spawn(named("clerk", send(&bus))).await.unwrap();
    let names = actors(&recorder);
    let count = names
        .iter()
        .filter(|name| name.starts_with("task of "))
        .count();
    assert_eq!((count, names.len()), (32, 34), "{names:?}");
    assert!(names.contains(&"clerk".to_string()), "{names:?}");
}

#[tokio::test]
async fn without_a_recorder_none_is_counted() {
    let place = |recorder: Option<&Recorder>| {
        let entered = recorder.map(Recorder::enter);
        let (bus, audit) = broadcast::channel(64);
        let sends = send(&bus);
        async move {
            let _kept = (entered, audit);
            tokio::spawn(sends).await.unwrap();
        }
    };
    let (first, second) = (Recorder::new(), Recorder::new());
    for recorder in [None, Some(&first), None, Some(&second), Some(&second)] {
        place(recorder).await;
    }
    let line = line!() - 7;
    assert_actors(&first, &[task_of(line, "")]);
    assert_actors(&second, &[task_of(line, ""), task_of(line, " 2")]);
}

/// What passes in an order that the test sets, or in any.
#[derive(Clone)]
struct Steps(Arc<[Mutex<Step>]>);

type Step = (Option<oneshot::Sender<()>>, Option<oneshot::Receiver<()>>);

impl Steps {
    fn new(count: usize) -> Steps {
        let step = |_| {
            let (tell, told) = oneshot::channel();
            Mutex::new((Some(tell), Some(told)))
        };
        Steps((0..count).map(step).collect())
    }

    /// Waits until the steps before this one are over. Where none is waited for, it only gives way.
    async fn wait(&self, step: usize, is_ordered: bool) {
        if is_ordered && step > 0 {
            let told = self.0[step - 1].lock().unwrap().1.take();
            told.unwrap().await.unwrap();
        } else {
            task::yield_now().await;
        }
    }

    fn end(&self, step: usize) {
        let tell = self.0[step].lock().unwrap().0.take();
        let _ = tell.unwrap().send(());
    }
}

/// Two clerks, the test's body and an audit without names. The second clerk sends first, and the
/// audit receives last, where the order is set. Else the audit begins first. Returns what it has
/// got.
async fn audited(is_ordered: bool) -> Result<u32, broadcast::error::RecvError> {
    let (orders, mut audit) = broadcast::channel(2);
    let steps = Steps::new(4);
    let of_audit = steps.clone();
    let audit = tokio::spawn(async move {
        of_audit.wait(3, is_ordered).await;
        audit.recv().await
    });
    let clerks = [(72, 1), (71, 0)].map(|(id, step)| {
        let (orders, steps) = (orders.clone(), steps.clone());
        tokio::spawn(async move {
            steps.wait(step, is_ordered).await;
            // Once the audit has received, nobody does.
            let _ = orders.send(id);
            steps.end(step);
        })
    });
    steps.wait(2, is_ordered).await;
    let _ = orders.send(73);
    steps.end(2);
    for clerk in clerks {
        clerk.await.unwrap();
    }
    audit.await.unwrap()
}

/// How often a run is replayed.
const REPLAYS: u32 = 100;

/// Records the order that is set, and replays it where none is set, as a test whose tasks are seen.
fn assert_replayed(name: &str, runtime: impl Fn() -> Runtime) {
    let path = env::temp_dir().join(format!("{name}-{}.journal", process::id()));
    let recorder = Recorder::new();
    let entered = recorder.enter();
    let lagged = Err(broadcast::error::RecvError::Lagged(1));
    assert_eq!(runtime().block_on(audited(true)), lagged);
    drop(entered);
    recorder.save(&path).unwrap();
    for time in 1..=REPLAYS {
        let recorder = Recorder::replay(&path).unwrap();
        let test = recorder.save_on_panic(name);
        let entered = recorder.enter();
        let got = runtime().block_on(audited(false));
        drop(entered);
        let replayed = recorder.replayed().unwrap();
        assert!(replayed.is_in_order(), "{replayed}");
        assert_eq!(got, lagged);
        if time == REPLAYS {
            test.save_on_err(got).unwrap_err();
        }
    }
    assert_tasks_are_seen(name);
    fs::remove_file(path.with_extension("names")).unwrap();
    fs::remove_file(&path).unwrap();
}

/// Asserts that what the replay of a test has written, which failed, has its tasks.
fn assert_tasks_are_seen(name: &str) {
    let program = env::current_exe().unwrap();
    let target = program.ancestors().nth(3).unwrap();
    let package = target.join("yovanelum").join(env!("CARGO_PKG_NAME"));
    let files = package.join("test-spawned");
    let names = fs::read_to_string(files.join(format!("{name}.replayed.names"))).unwrap();
    let (_, seen) = names.split_once("\"tasks_seen\"").expect("tasks were seen");
    assert!(seen.contains("task of tests/spawned.rs:"), "{seen}");
}

#[test]
fn a_replay_on_one_thread_needs_no_names() {
    let runtime = || Builder::new_current_thread().build().unwrap();
    assert_ne!(
        runtime().block_on(audited(false)),
        Err(broadcast::error::RecvError::Lagged(1))
    );
    assert_replayed("on_one_thread", runtime);
}

#[test]
fn a_replay_on_several_threads_needs_no_names() {
    let runtime = || {
        Builder::new_multi_thread()
            .worker_threads(2)
            .build()
            .unwrap()
    };
    assert_replayed("on_several_threads", runtime);
}
