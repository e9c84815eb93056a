//! Threads without async code: settings are changed while workers read them, and futures occur only
//! within `block_on`.

use crate::support::accepted;
use std::thread::{self, JoinHandle};
use yovanelum::{Recorder, block_on, watch};

#[derive(Clone, Debug, PartialEq)]
struct Settings {
    level: u32,
    is_last: bool,
}

/// Spawns a thread that waits for the last settings, and returns their level.
fn worker(number: usize, mut rx: watch::Receiver<Settings>) -> JoinHandle<u32> {
    let worker = thread::Builder::new().name(format!("worker {number}"));
    let wait = move || {
        block_on(rx.wait_for(|settings| settings.is_last))
            .unwrap()
            .level
    };
    worker.spawn(wait).unwrap()
}

#[test]
#[cfg_attr(target_family = "wasm", ignore = "WebAssembly has no threads")]
fn workers_come_to_the_last_settings() {
    let recorder = Recorder::for_test("workers_come_to_the_last_settings");
    let (tx, rx) = watch::channel(Settings {
        level: 0,
        is_last: false,
    });
    recorder
        .name(&tx, "settings")
        .show(&tx, |settings| format!("{settings:?}"));
    let workers: Vec<_> = (0..3).map(|number| worker(number, rx.clone())).collect();
    drop(rx);
    let writer = thread::Builder::new().name("writer".into());
    let writer = writer.spawn(move || {
        for level in 1..=9 {
            tx.send_modify(|settings| settings.level = level);
        }
        tx.send(Settings {
            level: 10,
            is_last: true,
        })
        .unwrap();
        block_on(tx.closed());
    });
    writer.unwrap().join().unwrap();
    for worker in workers {
        assert_eq!(worker.join().unwrap(), 10);
    }
    let names = recorder.names();
    assert!(
        names.contains(r#""10": "Settings { level: 10, is_last: true }""#),
        "{names}"
    );
    assert!(accepted(&recorder, "settings") >= 3 + 10 + 4);
}
