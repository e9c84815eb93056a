//! tokio-stream's [`BroadcastStream`](wrappers::BroadcastStream) and
//! [`WatchStream`](wrappers::WatchStream) over the channels of [`yovanelum`].
//!
//! The names, signatures and results are those of `tokio_stream::wrappers`. "As in tokio-stream"
//! marks what its documentation says about the same item, in other words. Each receive is recorded,
//! as without a stream.
//!
//! The crate depends on `yovanelum` and `futures-core` alone. Its streams implement the trait that
//! tokio-stream and futures export, so the methods of `tokio_stream::StreamExt` and
//! `futures::StreamExt` work with them.
//!
//! # Examples
//!
//! ```
//! use tokio_stream::StreamExt;
//! use yovanelum::{Recorder, block_on, broadcast};
//! use yovanelum_stream::wrappers::BroadcastStream;
//!
//! let recorder = Recorder::for_test("prices_are_streamed");
//! let (prices, chart) = broadcast::channel(4);
//! let mut chart = BroadcastStream::new(chart);
//! prices.send(101).unwrap();
//! drop(prices);
//! block_on(async {
//!     assert_eq!(chart.next().await, Some(Ok(101)));
//!     assert_eq!(chart.next().await, None);
//! });
//! // Two receives, one send and the drop of the sender.
//! assert_eq!(recorder.len(), 4);
//! ```

pub mod wrappers;

// Runs the program of the README.
#[cfg(doctest)]
#[doc = include_str!("../README.md")]
struct Readme;
