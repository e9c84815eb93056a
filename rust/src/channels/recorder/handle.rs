//! What a recorder knows a channel by: a sender or a receiver.

use super::TextOf;
use crate::channels::channel::RecordedChannel;
use crate::channels::handle::Kind;

/// A sender or a receiver, of either kind of channel.
///
/// [`Recorder::name`], [`Recorder::show`], [`Recorder::of`] and their kin accept any. It is
/// implemented for the senders and receivers of [`broadcast`](crate::broadcast) and
/// [`watch`](crate::watch), weak senders included, and cannot be implemented for other types.
///
/// [`Recorder::name`]: super::Recorder::name
/// [`Recorder::show`]: super::Recorder::show
/// [`Recorder::of`]: super::Recorder::of
///
/// # Examples
///
/// A function that names a channel and shows its values, for tests with many channels:
///
/// ```
/// use std::fmt::Debug;
/// use yovanelum::{Handle, Recorder, broadcast, watch};
///
/// fn describe<H: Handle<Value: Debug>>(recorder: &Recorder, handle: &H, name: &str) {
///     recorder.name_channel(handle, name).show(handle, |value| format!("{value:?}"));
/// }
///
/// let recorder = Recorder::new();
/// let _entered = recorder.enter();
/// let (prices, _chart) = broadcast::channel(2);
/// let (_state, rx) = watch::channel(Some("open"));
/// describe(&recorder, &prices, "prices");
/// describe(&recorder, &rx, "state");
/// prices.send(101).unwrap();
/// let names = recorder.names();
/// assert!(names.contains(r#"{"0": "prices", "1": "state"}"#));
/// assert!(names.contains(r#"{"0": {"0": "101"}, "1": {"0": "Some(\"open\")"}}"#));
/// ```
pub trait Handle {
    /// The type of the channel's values.
    type Value;

    // `RecordedHandle` has no public path. So no other crate can write this method, or implement
    // the trait.
    #[doc(hidden)]
    fn recorded(&self) -> RecordedHandle<'_>;

    // Nor has `TextOf`.
    #[doc(hidden)]
    fn set_text_of(&self, text_of: TextOf<Self::Value>);
}

/// What a recorder knows of a handle: its channel, its number there, and its kind.
pub struct RecordedHandle<'a> {
    pub(crate) channel: &'a RecordedChannel,
    pub(crate) number: u32,
    pub(crate) kind: Kind,
}
