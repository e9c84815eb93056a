//! The cases: what is called, the same of tokio's channels and of the crate's.

use std::future::Future;
use std::hint::black_box;
use std::pin::pin;
use std::sync::Arc;
use std::task::{Context, Wake, Waker};
use yovanelum::Recorder;

/// Whose channels are called, and what records them.
#[derive(Clone, Copy)]
pub enum Side {
    Tokio,
    Unrecorded,
    Recorded,
    /// With a flight recorder of at least this many calls a channel.
    Flight(usize),
}

impl Side {
    pub fn name(self) -> String {
        match self {
            Side::Tokio => "tokio".to_string(),
            Side::Unrecorded => "none".to_string(),
            Side::Recorded => "recorded".to_string(),
            Side::Flight(last) => format!("flight-{last}"),
        }
    }

    fn recorder(self) -> Option<Recorder> {
        match self {
            Side::Tokio | Side::Unrecorded => None,
            Side::Recorded => Some(Recorder::new()),
            Side::Flight(last) => Some(Recorder::flight(last)),
        }
    }

    /// Runs one of two with the recorder set: of tokio's channels, or of the crate's.
    pub fn run<R>(self, of_tokio: impl FnOnce() -> R, of_crate: impl FnOnce() -> R) -> R {
        let recorder = self.recorder();
        let _entered = recorder.as_ref().map(Recorder::enter);
        match self {
            Side::Tokio => of_tokio(),
            _ => of_crate(),
        }
    }
}

struct Nobody;

impl Wake for Nobody {
    fn wake(self: Arc<Self>) {}
}

pub fn waker() -> Waker {
    Arc::new(Nobody).into()
}

/// The cases for one crate's channels.
macro_rules! cases_of {
    ($name:ident, $module:path) => {
        mod $name {
            use super::*;
            use $module::{broadcast, watch};

            /// A send and a receive.
            pub fn pairs(count: u64) {
                let (tx, mut rx) = broadcast::channel(1024);
                for value in 0..count {
                    black_box(tx.send(black_box(value)).unwrap());
                    black_box(rx.try_recv().unwrap());
                }
            }

            /// A send, and a receive by a future that needn't wait.
            pub fn received(count: u64) {
                let (tx, mut rx) = broadcast::channel(1024);
                let waker = waker();
                let mut context = Context::from_waker(&waker);
                for value in 0..count {
                    tx.send(black_box(value)).unwrap();
                    assert!(black_box(pin!(rx.recv()).poll(&mut context)).is_ready());
                }
            }

            /// A send, and a receive by each of eight receivers.
            pub fn fanned(count: u64) {
                let (tx, rx) = broadcast::channel(1024);
                let mut all = [(); 8].map(|()| tx.subscribe());
                drop(rx);
                for value in 0..count {
                    tx.send(black_box(value)).unwrap();
                    for rx in &mut all {
                        black_box(rx.try_recv().unwrap());
                    }
                }
            }

            /// Three sends where two values are retained, the lag of the receiver, and its two
            /// receives.
            pub fn lagging(count: u64) {
                let (tx, mut rx) = broadcast::channel(2);
                for value in 0..count {
                    for _ in 0..3 {
                        tx.send(black_box(value)).unwrap();
                    }
                    assert!(black_box(rx.try_recv()).is_err());
                    black_box((rx.try_recv().unwrap(), rx.try_recv().unwrap()));
                }
            }

            /// A send without receivers.
            pub fn unheard(count: u64) {
                let (tx, rx) = broadcast::channel(16);
                drop(rx);
                for value in 0..count {
                    assert!(black_box(tx.send(black_box(value))).is_err());
                }
            }

            /// A sender that is cloned and dropped.
            pub fn cloned(count: u64) {
                let (tx, _rx) = broadcast::channel::<u64>(16);
                for _ in 0..count {
                    drop(black_box(tx.clone()));
                }
            }

            /// Two questions.
            pub fn asked(count: u64) {
                let (tx, rx) = broadcast::channel::<u64>(16);
                for _ in 0..count {
                    black_box((tx.receiver_count(), rx.len()));
                }
            }

            /// A send, and a look that marks the value as seen.
            pub fn watched(count: u64) {
                let (tx, mut rx) = watch::channel(0);
                for value in 0..count {
                    tx.send(black_box(value)).unwrap();
                    black_box(*rx.borrow_and_update());
                }
            }

            pub fn looks(count: u64) {
                let (_tx, rx) = watch::channel(7);
                for _ in 0..count {
                    black_box(*rx.borrow());
                }
            }

            /// Whether there is a value that is unseen.
            pub fn has_changed(count: u64) {
                let (_tx, rx) = watch::channel(7);
                for _ in 0..count {
                    assert!(!black_box(black_box(&rx).has_changed()).unwrap());
                }
            }

            /// Whether there is a receiver.
            pub fn is_closed(count: u64) {
                let (tx, _rx) = watch::channel(7);
                for _ in 0..count {
                    assert!(!black_box(black_box(&tx).is_closed()));
                }
            }

            /// How many receivers there are.
            pub fn counted(count: u64) {
                let (tx, _rx) = watch::channel(7);
                for _ in 0..count {
                    black_box(black_box(&tx).receiver_count());
                }
            }

            /// How many values are to be received.
            pub fn len(count: u64) {
                let (_tx, rx) = broadcast::channel::<u64>(16);
                for _ in 0..count {
                    black_box(black_box(&rx).len());
                }
            }

            /// A change in place, and a look that marks the value as seen.
            pub fn modified(count: u64) {
                let (tx, mut rx) = watch::channel(0);
                for value in 0..count {
                    tx.send_modify(|it| *it = black_box(value));
                    black_box(*rx.borrow_and_update());
                }
            }

            /// A wait for a change, the send that ends it, and its last poll.
            pub fn changed(count: u64) {
                let (tx, mut rx) = watch::channel(0);
                let waker = waker();
                let mut context = Context::from_waker(&waker);
                for value in 0..count {
                    let mut changed = pin!(rx.changed());
                    assert!(changed.as_mut().poll(&mut context).is_pending());
                    tx.send(black_box(value)).unwrap();
                    assert!(black_box(changed.as_mut().poll(&mut context)).is_ready());
                }
            }

            /// A receive that waits, the send that wakes it, and its last poll.
            pub fn woken(count: u64) {
                let (tx, mut rx) = broadcast::channel(16);
                let waker = waker();
                let mut context = Context::from_waker(&waker);
                for value in 0..count {
                    let mut received = pin!(rx.recv());
                    assert!(received.as_mut().poll(&mut context).is_pending());
                    tx.send(black_box(value)).unwrap();
                    assert!(black_box(received.as_mut().poll(&mut context)).is_ready());
                }
            }

            /// A receive that waits, and is dropped.
            pub fn cancelled(count: u64) {
                let (_tx, mut rx) = broadcast::channel::<u64>(16);
                let waker = waker();
                let mut context = Context::from_waker(&waker);
                for _ in 0..count {
                    assert!(pin!(rx.recv()).as_mut().poll(&mut context).is_pending());
                }
            }

            pub fn subscribed(count: u64) {
                let (tx, _rx) = broadcast::channel::<u64>(16);
                for _ in 0..count {
                    drop(black_box(tx.subscribe()));
                }
            }

            pub fn broadcasts(count: u64) {
                for _ in 0..count {
                    drop(black_box(broadcast::channel::<u64>(16)));
                }
            }

            pub fn watches(count: u64) {
                for _ in 0..count {
                    drop(black_box(watch::channel(0_u64)));
                }
            }
        }
    };
}

cases_of!(of_tokio, tokio::sync);
cases_of!(of_crate, yovanelum);

pub type Case = (&'static str, fn(Side, u64));

macro_rules! table {
    ($($case:ident)*) => {
        pub const CASES: [Case; [$(stringify!($case)),*].len()] = [
            $((stringify!($case), |side, count| {
                side.run(|| of_tokio::$case(count), || of_crate::$case(count))
            })),*
        ];
    };
}

table! { pairs received fanned lagging unheard cloned asked len watched modified looks has_changed is_closed counted woken changed cancelled subscribed broadcasts watches }
