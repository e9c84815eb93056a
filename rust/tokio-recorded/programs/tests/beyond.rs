//! A replay holds the tasks back that make calls which its journal doesn't have, so that they don't
//! block the thread on which others go on. Each test runs this program again, as a process.

use std::process::{Command, Output};
use std::sync::Arc;
use std::{env, fs};
use tokio::sync::broadcast;
use tokio::task::{spawn, yield_now};
use yovanelum::Recorder;

/// Goes round this many times, or as many as the variable says.
async fn rounds(variable: &str, count: usize) {
    let text = env::var(variable);
    for _ in 0..text.map_or(count, |text| text.parse().unwrap()) {
        yield_now().await;
    }
}

/// Two tasks share a sender. The test ends with the first value, and so the second task may have
/// made no call by then.
#[tokio::test]
#[ignore = "it is run by another test"]
async fn first_of_two() {
    let _recorder = Recorder::for_test("first_of_two");
    let (orders, mut audit) = broadcast::channel(4);
    let orders = Arc::new(orders);
    let of_slow = orders.clone();
    let slow = spawn(async move {
        rounds("SLOW", 1).await;
        let _ = of_slow.send(1);
        rounds("SLOW", 1).await;
    });
    let quick = spawn(async move {
        rounds("QUICK", 3).await;
        let _ = orders.send(2);
    });
    let first = audit.recv().await;
    assert_eq!(first, Ok(1));
    slow.await.unwrap();
    quick.await.unwrap();
}

/// The same with a task that only passes on what another one does, and is needed.
#[tokio::test]
#[ignore = "it is run by another test"]
async fn first_by_a_forwarder() {
    let _recorder = Recorder::for_test("first_by_a_forwarder");
    let (orders, mut audit) = broadcast::channel(4);
    let orders = Arc::new(orders);
    let (desk, mut asked) = tokio::sync::mpsc::channel::<u32>(4);
    let (pass, mut passed) = tokio::sync::mpsc::channel::<u32>(4);
    spawn(async move {
        while let Some(order) = asked.recv().await {
            let _ = pass.send(order).await;
        }
    });
    let of_slow = orders.clone();
    spawn(async move {
        rounds("SLOW", 1).await;
        let _ = of_slow.send(1);
    });
    spawn(async move {
        while let Some(order) = passed.recv().await {
            let _ = orders.send(order);
        }
    });
    rounds("QUICK", 3).await;
    desk.send(2).await.unwrap();
    assert_eq!(audit.recv().await, Ok(1));
}

fn run(name: &str, variables: &[(&str, &str)]) -> Output {
    Command::new(env::current_exe().unwrap())
        .args(["--ignored", "--exact", "--nocapture", name])
        .envs(variables.iter().copied())
        .output()
        .unwrap()
}

/// Has a program fail, and replays its journal ten times as it runs without the variables.
fn assert_comes_back(name: &str) {
    let failed = run(name, &[("SLOW", "200"), ("QUICK", "0")]);
    let said = String::from_utf8(failed.stderr).unwrap();
    assert!(!failed.status.success(), "{said}");
    let replay = said
        .lines()
        .find_map(|line| line.strip_prefix("replay: YOVANELUM_REPLAY="));
    let journal = replay.and_then(|replay| match replay.strip_prefix('\'') {
        Some(quoted) => quoted.split('\'').next(),
        None => replay.split(' ').next(),
    });
    let journal = journal.unwrap_or_else(|| panic!("{said}"));
    assert!(fs::metadata(journal).is_ok(), "{said}");
    for _ in 0..10 {
        let replayed = run(name, &[("YOVANELUM_REPLAY", journal)]);
        let said = String::from_utf8(replayed.stderr).unwrap();
        assert!(
            said.contains(" calls in the recorded order; the same failure"),
            "{said}"
        );
    }
}

#[test]
fn a_task_whose_calls_come_behind_the_journal_is_held() {
    assert_comes_back("first_of_two");
}

#[test]
fn a_task_that_others_wait_for_goes_on() {
    assert_comes_back("first_by_a_forwarder");
}
