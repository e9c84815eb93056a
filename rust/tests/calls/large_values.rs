//! Values that take much of a stack: a test has 2 MiB, and tokio's channels pass these there.

use std::sync::Arc;
use std::thread;
use yovanelum::{Recorder, block_on, broadcast, watch};

/// The stack that a test has.
const STACK: usize = 2 << 20;

const BYTES: usize = 128 << 10;

/// The same of a watch, which holds one value.
const OF_WATCH: usize = 192 << 10;

/// Runs a test in a thread with that stack, recorded and not.
fn with_stack(run: fn()) {
    for is_recorded in [false, true] {
        let run = move || {
            let recorder = is_recorded.then(Recorder::new);
            let _entered = recorder.as_ref().map(Recorder::enter);
            run();
        };
        let thread = thread::Builder::new().stack_size(STACK).spawn(run);
        thread.unwrap().join().unwrap();
    }
}

fn received_at_once() {
    let (tx, mut rx) = broadcast::channel(2);
    tx.send([7_u8; BYTES]).unwrap();
    assert_eq!(rx.try_recv().unwrap()[BYTES - 1], 7);
}

fn received_by_a_future() {
    let (tx, mut rx) = broadcast::channel(2);
    tx.send([7_u8; BYTES]).unwrap();
    assert_eq!(block_on(rx.recv()).unwrap()[BYTES - 1], 7);
}

fn looked_at() {
    let (tx, mut rx) = watch::channel([7_u8; OF_WATCH]);
    tx.send([8_u8; OF_WATCH]).unwrap();
    block_on(rx.changed()).unwrap();
    assert_eq!(rx.borrow_and_update()[OF_WATCH - 1], 8);
}

#[test]
#[cfg_attr(target_family = "wasm", ignore = "WebAssembly has no threads")]
fn a_large_value_of_a_watch_passes_on_the_stack_of_a_test() {
    with_stack(looked_at);
}

#[test]
#[cfg_attr(target_family = "wasm", ignore = "WebAssembly has no threads")]
fn large_values_pass_on_the_stack_of_a_test() {
    with_stack(received_at_once);
    with_stack(received_by_a_future);
}

/// What the receivers of a large value get: as many clones of it as there are, and it is dropped
/// with the last of them, or when no receiver is left that has yet to receive it.
#[test]
fn a_large_value_is_cloned_and_dropped_as_a_small_one() {
    #[derive(Clone)]
    struct Large {
        _alive: Arc<()>,
        numbers: [u64; 512],
    }

    let alive = Arc::new(());
    let count = || Arc::strong_count(&alive) - 1;
    let (tx, mut one) = broadcast::channel(2);
    let (mut other, behind) = (tx.subscribe(), tx.subscribe());
    let send = |number| {
        let numbers = [number; 512];
        let _alive = alive.clone();
        tx.send(Large { _alive, numbers }).ok()
    };
    assert_eq!((send(1), count()), (Some(3), 1));
    let first = one.try_recv().unwrap();
    assert_eq!((first.numbers[511], count()), (1, 2));
    drop((first, other.try_recv().unwrap()));
    assert_eq!(count(), 1, "one receiver has yet to receive it");
    assert_eq!((send(2), send(3), count()), (Some(3), Some(3), 2));
    drop(behind);
    assert_eq!(block_on(one.recv()).map(|it| it.numbers[0]).ok(), Some(2));
    assert_eq!(other.try_recv().map(|it| it.numbers[0]).ok(), Some(2));
    assert_eq!(count(), 1, "both have the value 2");
    drop((one, other));
    assert_eq!((count(), send(4)), (0, None));
}
