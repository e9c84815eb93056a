//! A channel with many senders and many receivers, in which every receiver gets every value:
//! tokio's `sync::broadcast`, recorded.
//!
//! A [`Sender`] sends values. Each [`Receiver`] receives a clone of every value that is sent while
//! it is alive, in the order of the sends. [`channel`] creates a sender and a receiver.
//! [`Sender::subscribe`] and [`Receiver::resubscribe`] create further receivers, which receive what
//! is sent from then on. A sender can be cloned, or shared by reference.
//!
//! Names, signatures and results are those of [`tokio::sync::broadcast`][tokio]. "As in tokio"
//! marks what tokio's documentation says about the same item, in other words. "Unlike tokio" marks
//! a difference.
//!
//! [tokio]: https://docs.rs/tokio/1/tokio/sync/broadcast/index.html
//!
//! # Lagging
//!
//! The channel retains as many values as its capacity, rounded up to a power of two. A send never
//! waits for a receiver: if the channel is full, it overwrites the oldest value. A receiver that
//! had not received that value *lags*. Its next receive returns
//! [`Lagged`](error::RecvError::Lagged) with the number of values that it lost. The receive after
//! that returns the oldest value that is still retained.
//!
//! # Closing
//!
//! The channel is closed when every [`Sender`] has been dropped. A receiver still receives what was
//! sent before, and then gets [`Closed`](error::RecvError::Closed). If every receiver has been
//! dropped, a send fails until [`Sender::subscribe`] creates a new one.
//!
//! # Examples
//!
//! Two services listen to one event bus:
//!
//! ```
//! use yovanelum::{block_on, broadcast};
//!
//! let (bus, mut mailer) = broadcast::channel(16);
//! let mut audit = bus.subscribe();
//! bus.send("user created").unwrap();
//! bus.send("user deleted").unwrap();
//! drop(bus);
//! block_on(async {
//!     for service in [&mut mailer, &mut audit] {
//!         assert_eq!(service.recv().await, Ok("user created"));
//!         assert_eq!(service.recv().await, Ok("user deleted"));
//!         assert_eq!(service.recv().await, Err(broadcast::error::RecvError::Closed));
//!     }
//! });
//! ```
//!
//! A receiver that lags:
//!
//! ```
//! use yovanelum::broadcast::{self, error::TryRecvError};
//!
//! let (prices, mut chart) = broadcast::channel(2);
//! for price in [101, 102, 103] {
//!     prices.send(price).unwrap();
//! }
//! assert_eq!(chart.try_recv(), Err(TryRecvError::Lagged(1)));
//! assert_eq!(chart.try_recv(), Ok(102));
//! assert_eq!(chart.try_recv(), Ok(103));
//! ```

pub mod error;
mod receiver;
mod sender;
mod values;
mod weak;

pub use receiver::Receiver;
pub use sender::Sender;
pub use weak::WeakSender;

use crate::channels::backend::{OpenFault, Spec};
use crate::channels::channel::{ChannelState, RecordedChannel, TypedChannel, call_site};
use crate::channels::guarded_by::GuardedBy;
use crate::channels::handle::ChannelHandle;
use crate::channels::of_version::is_there;
use std::mem::MaybeUninit;
use std::sync::Once;
use values::Values;

/// How many values a channel retains at most.
pub(crate) const MOST_CAPACITY: usize = 65_536;

/// What tokio's panics say of a capacity, in the version of this build: a test may expect them by
/// `should_panic`.
const NO_CAPACITY: &str = if HAS_NEW_WORDS {
    "broadcast channel capacity cannot be zero"
} else {
    "capacity is empty"
};
const TOO_GREAT_A_CAPACITY: &str = if HAS_NEW_WORDS {
    "broadcast channel capacity exceeded `usize::MAX / 2`"
} else {
    "requested capacity too large"
};
const HAS_NEW_WORDS: bool = is_there("broadcast::channel's words of a capacity");

/// What each sender, weak sender and receiver is.
type BroadcastHandle<T> = ChannelHandle<T, GuardedBy<ChannelState, Values<T>>>;

/// Creates a broadcast channel with this capacity, and returns its first sender and its first
/// receiver.
///
/// As in tokio, every receiver that is alive gets every value, in the order of the sends, and the
/// channel may retain more values than the capacity: it is rounded up to a power of two.
///
/// # Panics
///
/// Panics if the capacity is 0 or greater than half of `usize::MAX`, as in tokio.
///
/// Unlike tokio, a channel retains 65,536 values at most. Where it asks for more, a line on
/// standard error says so, and a receiver that is further behind lags.
///
/// # Examples
///
/// ```
/// use yovanelum::broadcast::{self, error::TryRecvError};
///
/// // A capacity of three is rounded up to four.
/// let (prices, mut chart) = broadcast::channel(3);
/// for price in 101..=105 {
///     prices.send(price).unwrap();
/// }
/// assert_eq!(chart.try_recv(), Err(TryRecvError::Lagged(1)));
/// assert_eq!(chart.try_recv(), Ok(102));
/// ```
#[track_caller]
pub fn channel<T: Clone>(capacity: usize) -> (Sender<T>, Receiver<T>) {
    open(capacity)
}

/// Says once that a channel retains fewer values than it asks for. A test may run all the same: few
/// programs let receivers be as far behind.
#[cold]
fn say_that_fewer_are_retained(capacity: usize) {
    static IS_SAID: Once = Once::new();
    IS_SAID.call_once(|| {
        eprintln!(
            "yovanelum: a broadcast asks for a capacity of {capacity}, and retains 65536 values; a receiver that is further behind lags, and tokio's would not"
        );
    });
}

#[track_caller]
fn open<T>(capacity: usize) -> (Sender<T>, Receiver<T>) {
    assert!(capacity > 0, "{}", NO_CAPACITY);
    assert!(capacity <= usize::MAX >> 1, "{}", TOO_GREAT_A_CAPACITY);
    let capacity = if capacity > MOST_CAPACITY {
        say_that_fewer_are_retained(capacity);
        MOST_CAPACITY
    } else {
        capacity
    };
    let spec = Spec::Broadcast(capacity as u32);
    let recorded = match RecordedChannel::open(spec, 0, call_site()) {
        Ok(recorded) => recorded,
        Err(OpenFault::NoMemory) => panic!("yovanelum: no memory for a channel"),
        Err(fault) => unreachable!("the capacity is 1 to 65536: {fault}"),
    };
    let values = GuardedBy::new(recorded.state.address(), Values::new(capacity));
    let channel = TypedChannel::shared(recorded, values, MaybeUninit::write);
    let (sender, receiver) = ChannelHandle::first_two(channel);
    (Sender { handle: sender }, Receiver { handle: receiver })
}
