//! Programs at the edges of what is explored: what is no order, and what runs share.

use super::{ended, on_one_thread, spawn};
use std::collections::HashSet;
use std::process::{Command, Stdio};
use std::sync::Arc;
use std::sync::atomic::{AtomicBool, Ordering};
use std::time::Duration;
use std::{env, fs, thread};
use tokio::time::sleep;
use yovanelum::{broadcast, named, watch};

/// The folder that the test of this program has for it.
pub const FOLDER: &str = "EXPLORED_FOLDER";

/// A right program that has one file to itself, as another one has a port.
pub fn has_a_file() {
    let folder = env::var(FOLDER).unwrap();
    let file = format!("{folder}/has_a_file");
    let opened = fs::File::create_new(&file);
    opened.expect("nobody else has the file");
    let (price, mut seen) = watch::channel(0);
    let reader = spawn("reader", move || *seen.borrow_and_update());
    thread::sleep(Duration::from_millis(30));
    let _ = price.send(1);
    reader.join().unwrap();
    fs::remove_file(file).unwrap();
}

/// It fails once in 32 runs, in whichever order.
pub fn fails_by_chance() {
    let (price, mut seen) = watch::channel(0);
    let reader = spawn("reader", move || *seen.borrow_and_update());
    let names: HashSet<u32> = (0..32).collect();
    let _ = price.send(1);
    reader.join().unwrap();
    assert_ne!(names.iter().next(), Some(&3), "the first of a set");
}

/// A random order has no end, unless all who stand go on in turn.
pub fn ends_in_turn() {
    let (price, mut seen) = watch::channel(0);
    let reader = spawn("reader", move || *seen.borrow_and_update());
    let _ = price.send(1);
    reader.join().unwrap();
    let order = env::var("YOVANELUM_EXPLORE_ORDER").unwrap_or_default();
    let is_random = order.trim_start_matches('t').starts_with('r');
    while is_random && env::var_os("YOVANELUM_EXPLORE_FAIR").is_none() {
        thread::sleep(Duration::from_secs(1));
    }
}

/// It fails in each order.
pub fn fails_always() {
    let (price, mut seen) = watch::channel(0);
    let reader = spawn("reader", move || *seen.borrow_and_update());
    let _ = price.send(1);
    reader.join().unwrap();
    assert_eq!(1 + 1, 3);
}

/// The file that a process writes which has outlived its test and its session.
pub const OUTLIVED: &str = "outlived";

/// A right program that leaves a process behind, which has its standard error. It ends when the
/// folder is removed, or after ten minutes.
#[expect(clippy::zombie_processes, reason = "it outlives who has started it")]
pub fn leaves_a_process() {
    let folder = env::var(FOLDER).unwrap();
    let waits = format!(
        "for i in $(seq 3000); do [ -e '{folder}' ] || exit; sleep 0.2; done; touch '{folder}/{OUTLIVED}'"
    );
    let mut shell = Command::new("sh");
    shell.args(["-c", &waits]).stdin(Stdio::null());
    let _left = shell.spawn().unwrap();
    let (orders, mut rx) = broadcast::channel(2);
    let clerk = spawn("clerk", move || rx.blocking_recv());
    orders.send(71).unwrap();
    drop(orders);
    assert_eq!(clerk.join().unwrap(), Ok(71));
}

/// A bug of order in a test that takes a while: an update is marked as seen unseen.
pub fn slow_lost_update() {
    on_one_thread(async {
        sleep(Duration::from_millis(300)).await;
        let (config, mut rx) = watch::channel(0);
        let reader = tokio::spawn(yovanelum::named("reader", async move {
            let mut applied = 0;
            while rx.changed().await.is_ok() {
                applied = *rx.borrow();
                tokio::task::yield_now().await;
                rx.mark_unchanged();
            }
            applied
        }));
        let admin = tokio::spawn(yovanelum::named("admin", async move {
            for version in 1..=3 {
                config.send(version).unwrap();
                for _ in 0..4 {
                    tokio::task::yield_now().await;
                }
            }
        }));
        ended(admin).await;
        assert_eq!(ended(reader).await, 3);
    });
}

/// A test gives a server ten milliseconds to listen. The future on which the runtime blocks waits
/// for them, and no task does.
pub fn listens_by_then() {
    on_one_thread(async {
        let listens = Arc::new(AtomicBool::new(false));
        let begun = listens.clone();
        tokio::spawn(named("server", async move {
            begun.store(true, Ordering::Relaxed);
        }));
        sleep(Duration::from_millis(10)).await;
        assert!(listens.load(Ordering::Relaxed), "it listens");
    });
}
