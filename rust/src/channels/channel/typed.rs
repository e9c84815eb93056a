//! A channel with its values. They are written into the place where they stay, since a large value
//! would be on the stack of an unoptimized build once more for each function that passes it on.
#![allow(unsafe_code)]

use super::RecordedChannel;
use crate::channels::erased::LaterText;
use crate::channels::in_place::place_in;
use crate::channels::recorder::TextOf;
use std::mem::MaybeUninit;
use std::ptr;
use std::sync::{Arc, OnceLock};

/// A channel with its values, which are of the type `T`. `S` is how they are stored: a broadcast
/// stores several, and a watch one.
pub(crate) struct TypedChannel<T, S> {
    pub(crate) recorded: RecordedChannel,
    pub(crate) values: S,
    text_of: OnceLock<TextOf<T>>,
}

impl<T, S> TypedChannel<T, S> {
    /// Creates a channel whose values `store` writes into their place, of what it is given.
    ///
    /// # Panics
    ///
    /// Panics if `store` returns another place than it was given.
    pub(crate) fn shared<V>(
        recorded: RecordedChannel,
        values: V,
        store: fn(&mut MaybeUninit<S>, V) -> &mut S,
    ) -> Arc<TypedChannel<T, S>> {
        const { assert!(size_of::<S>() > 0) };
        let text_of = OnceLock::new();
        if recorded.recorder.shows_known() {
            let _ = text_of.set(TextOf::known());
        }
        let made = Arc::<TypedChannel<T, S>>::new_uninit();
        let channel = place_in(&made);
        // SAFETY: nobody else has the place. All three parts are written, each into its own, before
        // the whole is said to be. Who returns a reference to the place of the values has written
        // them.
        unsafe {
            let place = &raw mut (*channel).values;
            let stored = store(&mut *place.cast::<MaybeUninit<S>>(), values);
            assert!(ptr::eq(stored, place), "the values are in another place");
            (&raw mut (*channel).recorded).write(recorded);
            (&raw mut (*channel).text_of).write(text_of);
            made.assume_init()
        }
    }

    /// Whether the channel has a function for the texts of values, and its recorder records.
    #[inline]
    pub(crate) fn has_text_of(&self) -> bool {
        let Some(recorder) = &self.recorded.recorder.0 else {
            return false;
        };
        match self.text_of.get() {
            Some(_) => !recorder.has_ended(),
            None => false,
        }
    }

    /// Returns the text of a value, if the channel has a function for it and its recorder records.
    #[inline]
    pub(crate) fn text(&self, value: &T) -> Option<String> {
        let text_of = self.text_of.get()?;
        self.recorded
            .recorder
            .is_recording()
            .then(|| text_of.text(value))?
    }

    /// As [`text`](TypedChannel::text), of a value that is locked, or else what makes the text once
    /// nothing is.
    pub(crate) fn text_in_place<'a>(&self, value: &T) -> (Option<String>, Option<LaterText<'a>>)
    where
        T: 'a,
    {
        match self.text_of.get() {
            Some(text_of) if self.recorded.recorder.is_recording() => text_of.text_in_place(value),
            _ => (None, None),
        }
    }

    /// Sets the function for the texts of values. Returns `false` if the channel has one already,
    /// which it keeps.
    pub(crate) fn set_text_of(&self, text_of: TextOf<T>) -> bool {
        match self.text_of.get() {
            Some(own) => own.give(text_of),
            None => self.text_of.set(text_of).is_ok(),
        }
    }
}
