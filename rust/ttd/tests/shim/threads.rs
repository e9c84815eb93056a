//! Scoped threads, whose handles leave the scope.

use std::panic::{AssertUnwindSafe, catch_unwind};
use std::sync::atomic::{AtomicU32, Ordering::SeqCst};
use std::sync::mpsc;
use yovanelum_ttd::shim::rt::HostRuntime;
use yovanelum_ttd::shim::thread::{JoinHandle, scope, scope_env};

const RT: HostRuntime = HostRuntime;

#[test]
#[cfg_attr(target_family = "wasm", ignore = "WebAssembly has no threads")]
fn a_handle_may_leave_its_scope() {
    let names = ["a", "bc", "def"];
    let mut handles: std::vec::Vec<JoinHandle<usize>> = std::vec::Vec::new();
    let result = scope(scope_env(), &RT, |scope| {
        for name in &names {
            handles.push(scope.spawn(move || name.len()).unwrap());
        }
        17
    });
    assert_eq!(result, 17);
    let lengths: std::vec::Vec<usize> = handles.into_iter().map(|it| it.join(&RT)).collect();
    assert_eq!(lengths, [1, 2, 3]);
}

#[test]
#[cfg_attr(target_family = "wasm", ignore = "WebAssembly has no threads")]
fn a_join_waits_for_the_result() {
    let (send, receive) = mpsc::channel();
    scope(scope_env(), &RT, |scope| {
        let waits = scope.spawn(move || receive.recv().unwrap()).unwrap();
        send.send(5).unwrap();
        assert_eq!(waits.join(&RT), 5);
    });
}

#[test]
#[cfg_attr(target_family = "wasm", ignore = "WebAssembly has no threads")]
fn a_scope_returns_after_its_threads() {
    let ended = AtomicU32::new(0);
    let (send, receive) = mpsc::channel::<()>();
    scope(scope_env(), &RT, |scope| {
        for _ in 0..3 {
            drop(scope.spawn(|| ended.fetch_add(1, SeqCst)).unwrap());
        }
        let ended = &ended;
        let last = scope.spawn(move || {
            receive.recv().unwrap_err();
            ended.fetch_add(1, SeqCst);
        });
        drop(last.unwrap());
        drop(send);
    });
    assert_eq!(ended.load(SeqCst), 4);
}

#[test]
#[cfg_attr(target_family = "wasm", ignore = "WebAssembly has no threads")]
fn a_panic_is_passed_on_by_join() {
    let passed_on = catch_unwind(AssertUnwindSafe(|| {
        scope(scope_env(), &RT, |scope| {
            let panics = scope.spawn(|| panic!("in the thread"));
            panics.unwrap().join(&RT)
        })
    }));
    let message = passed_on.unwrap_err().downcast::<&str>().unwrap();
    assert_eq!(*message, "in the thread");
}
