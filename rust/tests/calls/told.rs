//! What tests of events and of snapshots share: the line of a place that is told, and values to
//! tell of.

use std::ops::Range;
use std::panic::Location;
use yovanelum::broadcast::Sender;

/// Returns the line of a place, which is in the file that asks.
#[track_caller]
pub fn line(at: Option<&'static Location<'static>>) -> u32 {
    let at = at.expect("a place");
    assert_eq!(at.file(), Location::caller().file());
    at.line()
}

/// Sends these values.
pub fn send_each(prices: &Sender<i32>, values: Range<i32>) {
    for value in values {
        prices.send(value).unwrap();
    }
}
