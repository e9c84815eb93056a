//! Locks and conditions.

use std::panic::{AssertUnwindSafe, catch_unwind};
use std::thread;
use yovanelum_ttd::shim::rt::HostRuntime;
use yovanelum_ttd::shim::sync::{Condvar, Mutex, Wait};

const RT: HostRuntime = HostRuntime;

#[test]
#[cfg_attr(target_family = "wasm", ignore = "WebAssembly has no threads")]
fn a_lock_is_one_threads_at_a_time() {
    let lock = Mutex::new(0);
    thread::scope(|scope| {
        for _ in 0..4 {
            scope.spawn(|| (0..1_000).for_each(|_| *lock.lock(&RT) += 1));
        }
    });
    assert_eq!(*lock.lock(&RT), 4_000);
}

#[test]
fn a_lock_that_is_held_is_not_acquired_by_a_try() {
    let mut lock = Mutex::new(5);
    let guard = lock.lock(&RT);
    assert!(lock.try_lock().is_none());
    drop(guard);
    *lock.try_lock().unwrap() += 1;
    assert_eq!(*lock.get_mut(), 6);
}

#[test]
#[cfg_attr(target_family = "wasm", ignore = "WebAssembly ends at the first panic")]
fn a_panic_under_a_lock_does_not_close_it() {
    let mut lock = Mutex::new(1);
    let panicked = catch_unwind(AssertUnwindSafe(|| {
        let mut guard = lock.lock(&RT);
        *guard = 2;
        panic!("under the lock");
    }));
    assert!(panicked.is_err());
    assert_eq!(*lock.lock(&RT), 2);
    assert_eq!(lock.try_lock().map(|guard| *guard), Some(2));
    assert_eq!(*lock.get_mut(), 2);
}

#[test]
#[cfg_attr(target_family = "wasm", ignore = "WebAssembly has no threads")]
fn a_waiting_thread_is_woken() {
    let go = Mutex::new(false);
    let told = Condvar::new();
    thread::scope(|scope| {
        let waiting = scope.spawn(|| {
            let mut guard = go.lock(&RT);
            for () in RT.forever() {
                if *guard {
                    return;
                }
                guard = told.wait(&RT, guard);
            }
            unreachable!()
        });
        *go.lock(&RT) = true;
        told.notify_all();
        waiting.join().unwrap();
    });
}
