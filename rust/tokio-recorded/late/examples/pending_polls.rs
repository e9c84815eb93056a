//! What it costs that tasks are seen: `pending_polls WHAT COUNT [recorded]`. `queue` sends that
//! many values between two tasks and back, `yields` polls a task so often that it is pending, and
//! `calls` sends and receives that many by a channel of yovanelum. It prints the least time of
//! seven turns, in nanoseconds of the process for each.

use std::time::Duration;
use tokio::sync::{broadcast, mpsc};
use yovanelum::Recorder;

const TURNS: u32 = 7;

/// The time that this process has had of the processors, in ticks of a nanosecond.
fn processor_time() -> Duration {
    let text = std::fs::read_to_string("/proc/self/schedstat").unwrap();
    let first = text.split(' ').next().unwrap();
    Duration::from_nanos(first.parse().unwrap())
}

async fn queue(count: u32) {
    let (there, mut here) = mpsc::channel::<u32>(1);
    let (back, mut answered) = mpsc::channel::<u32>(1);
    tokio::spawn(async move {
        while let Some(value) = here.recv().await {
            back.send(value).await.unwrap();
        }
    });
    for value in 0..count {
        there.send(value).await.unwrap();
        assert_eq!(answered.recv().await, Some(value));
    }
}

async fn yields(count: u32) {
    let (_open, mut never) = mpsc::channel::<u32>(1);
    for _ in 0..count {
        tokio::select! {
            biased;
            _ = never.recv() => unreachable!(),
            () = tokio::task::yield_now() => {}
        }
    }
}

async fn calls(count: u32) {
    let (orders, mut received) = broadcast::channel(4);
    for value in 0..count {
        orders.send(value).unwrap();
        assert_eq!(received.recv().await, Ok(value));
    }
}

fn main() {
    let words: Vec<_> = std::env::args().collect();
    let count: u32 = words[2].parse().unwrap();
    let turns = if words.len() > 4 { 1 } else { TURNS };
    let runtime = tokio::runtime::Builder::new_current_thread()
        .enable_all()
        .build()
        .unwrap();
    let times = (0..turns).map(|_| {
        let recorder = words.get(3).is_some_and(|word| word == "recorded");
        let _recorder = recorder.then(|| Recorder::for_test("pending_polls"));
        let begun = processor_time();
        match words[1].as_str() {
            "queue" => runtime.block_on(queue(count)),
            "yields" => runtime.block_on(yields(count)),
            _ => runtime.block_on(calls(count)),
        }
        processor_time() - begun
    });
    println!("{}", times.min().unwrap().as_nanos() / u128::from(count));
}
