//! Values that take much of a stack: `prices stack WHAT SIDE BYTES` makes the calls in a thread with
//! a stack of this size. It overflows, or the program ends well.

use crate::cases::{Side, waker};
use std::future::Future;
use std::hint::black_box;
use std::pin::pin;
use std::task::{Context, Poll};
use std::thread;

/// The values of a broadcast have 128 KiB, and those of a watch 192, or both have 1 MiB.
const OF_BROADCAST: usize = 128 << 10;
const OF_WATCH: usize = 192 << 10;
const MEBIBYTE: usize = 1 << 20;

fn polled<R>(future: impl Future<Output = R>) -> R {
    match pin!(future).poll(&mut Context::from_waker(&waker())) {
        Poll::Ready(result) => result,
        Poll::Pending => panic!("a value is there"),
    }
}

macro_rules! large_of {
    ($name:ident, $module:path) => {
        mod $name {
            use super::*;
            use $module::{broadcast, watch};

            pub fn broadcast<const BYTES: usize>() {
                let (tx, mut rx) = broadcast::channel(2);
                tx.send([1_u8; BYTES]).unwrap();
                black_box(rx.try_recv().unwrap()[0]);
                tx.send([2_u8; BYTES]).unwrap();
                black_box(polled(rx.recv()).unwrap()[0]);
            }

            pub fn watch<const BYTES: usize>() {
                let (tx, mut rx) = watch::channel([1_u8; BYTES]);
                tx.send([2_u8; BYTES]).unwrap();
                polled(rx.changed()).unwrap();
                black_box(rx.borrow_and_update()[0]);
            }
        }
    };
}

large_of!(of_tokio, tokio::sync);
large_of!(of_crate, yovanelum);

pub fn with_stack(what: &str, side: Side, bytes: usize) {
    let (tokio, own): (fn(), fn()) = match what {
        "broadcast" => (
            of_tokio::broadcast::<OF_BROADCAST>,
            of_crate::broadcast::<OF_BROADCAST>,
        ),
        "watch" => (of_tokio::watch::<OF_WATCH>, of_crate::watch::<OF_WATCH>),
        "broadcast-1m" => (
            of_tokio::broadcast::<MEBIBYTE>,
            of_crate::broadcast::<MEBIBYTE>,
        ),
        "watch-1m" => (of_tokio::watch::<MEBIBYTE>, of_crate::watch::<MEBIBYTE>),
        _ => panic!("no values are called {what}"),
    };
    let run = move || side.run(tokio, own);
    let made = thread::Builder::new().stack_size(bytes).spawn(run);
    made.unwrap().join().unwrap();
}
