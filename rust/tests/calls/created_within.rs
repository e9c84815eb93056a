//! A recorder's second channel is created by code of the user's that a call of its first one runs:
//! both use one clock from then on, of which the first one has to know.

use crate::noted::Noted;
use crate::support::{LONG, accepted, poll_once};
use std::pin::pin;
use std::sync::Arc;
use std::sync::mpsc;
use std::task::{Context, Poll, Wake};
use std::thread;
use yovanelum::{Lag, Recorder, broadcast, show, watch};

/// Creates a channel, sends on it and receives.
fn use_another() {
    let (tx, mut rx) = broadcast::channel(1);
    tx.send(1).unwrap();
    assert_eq!(rx.try_recv(), Ok(1));
}

/// A value whose clones and drops do that.
#[derive(Debug)]
struct Busy;

impl Clone for Busy {
    fn clone(&self) -> Busy {
        use_another();
        Busy
    }
}

impl Drop for Busy {
    fn drop(&mut self) {
        use_another();
    }
}

impl Wake for Busy {
    fn wake(self: Arc<Self>) {
        use_another();
    }
}

/// Runs the calls with a recorder, and has its journal read. Where they wait for each other, that
/// fails.
fn recorded(calls: impl FnOnce(&Recorder) + Send + 'static, title: &str) -> u64 {
    let (done, ended) = mpsc::channel();
    let running = thread::spawn(move || {
        let recorder = Recorder::new();
        let entered = recorder.enter();
        calls(&recorder);
        drop(entered);
        done.send(recorder)
    });
    let recorder = ended.recv_timeout(LONG);
    let recorder = recorder.expect("the calls end");
    running.join().unwrap().unwrap();
    accepted(&recorder, title)
}

#[test]
fn values_are_cloned_overwritten_and_dropped() {
    let calls = |_: &Recorder| {
        let (tx, mut rx) = broadcast::channel(1);
        let mut other = tx.subscribe();
        tx.send(Busy).unwrap();
        drop(rx.try_recv().unwrap());
        drop(other.try_recv().unwrap());
        tx.send(Busy).unwrap();
        tx.send(Busy).unwrap();
    };
    // This channel has nine calls with those of its drops, and each other one has four.
    assert!(recorded(calls, "created-within-values") >= 9 + 4 * 3);
}

#[test]
fn a_value_of_a_watch_is_changed_and_looked_at() {
    let calls = |_: &Recorder| {
        let (tx, mut rx) = watch::channel(0);
        tx.send_modify(|value| {
            use_another();
            *value = 1;
        });
        assert!(tx.send_if_modified(|_| {
            use_another();
            true
        }));
        let value = rx.borrow_and_update();
        use_another();
        drop(value);
        let is_one = |value: &i32| {
            use_another();
            *value == 1
        };
        assert!(poll_once(rx.wait_for(is_one)).unwrap().is_ok());
    };
    // `borrow_and_update`, `wait_for`, two sends and two drops; the others have four each.
    assert_eq!(recorded(calls, "created-within-watch"), 6 + 4 * 4);
}

#[test]
fn a_waiting_task_is_woken() {
    let calls = |_: &Recorder| {
        let (tx, mut rx) = broadcast::channel(1);
        let waker = Arc::new(Busy).into();
        let mut context = Context::from_waker(&waker);
        let mut waiting = pin!(rx.recv());
        assert!(waiting.as_mut().poll(&mut context).is_pending());
        tx.send(7).unwrap();
        assert_eq!(waiting.poll(&mut context), Poll::Ready(Ok(7)));
    };
    // A send, a receive and two drops; the waker is woken and dropped.
    assert_eq!(recorded(calls, "created-within-wake"), 4 + 4 * 2);
}

#[test]
fn texts_are_written_and_lags_are_told() {
    let calls = |recorder: &Recorder| {
        let lags = Noted::<Lag>::default();
        let noted = lags.noting();
        recorder.on_lag(move |lag| {
            use_another();
            noted(lag);
        });
        let (tx, mut rx) = broadcast::channel(1);
        show!(recorder, &tx, |value: &u32| {
            use_another();
            value.to_string()
        });
        for value in 0..3 {
            tx.send(value).unwrap();
        }
        assert!(rx.try_recv().is_err());
        assert_eq!(lags.take().len(), 1);
    };
    // Three sends, a receive and two drops; three texts and one lag.
    assert_eq!(recorded(calls, "created-within-texts"), 6 + 4 * 4);
}
