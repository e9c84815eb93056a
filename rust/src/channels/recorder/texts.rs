//! The functions for the texts of values, and the closures that are called with events.
//!
//! A recorder holds them, and its channels know them weakly. A function may hold a sender or a
//! receiver. If the channel held it, the channel would hold itself, and stay open forever.

use crate::channels::cut::at_most;
use crate::channels::erased::{self, LaterText};
use crate::channels::events::Hooks;
use crate::channels::lock::lock;
use crate::channels::turns::{TestEnd, Turns};
use std::any::Any;
use std::sync::atomic::{AtomicUsize, Ordering};
use std::sync::{Arc, Mutex, OnceLock, Weak};
use yovanelum_record::numbered::NumberMap;

/// How many bytes a text has at most, unless the recorder is told otherwise.
const MOST_BYTES: usize = 4096;

/// The functions that a recorder holds, until its last handle is dropped. Then its replay ends too,
/// if it has one.
pub(crate) struct Texts {
    functions: Mutex<Functions>,
    hooks: Hooks,
    // How many bytes a text has at most. Each function has it too, so that it needs no handle of
    // the recorder.
    most_bytes: Arc<AtomicUsize>,
    turns: Option<Arc<dyn Turns>>,
}

#[derive(Default)]
struct Functions {
    next: u64,
    by_number: NumberMap<u64, Arc<dyn Any + Send + Sync>>,
}

/// What a channel knows of the function for the texts of its values. If this is dropped, the
/// recorder drops the function.
pub struct TextOf<T>(Source<T>);

/// Where the text of a value is from.
enum Source<T> {
    Held(HeldFunction<T>),
    /// Its type, until a function is given.
    Known(OnceLock<HeldFunction<T>>),
}

/// A function that the recorder holds.
struct HeldFunction<T> {
    function: Weak<dyn Fn(&T) -> String + Send + Sync>,
    held_by: Weak<Texts>,
    number: u64,
    most_bytes: Arc<AtomicUsize>,
}

impl Drop for Texts {
    fn drop(&mut self) {
        if let Some(turns) = &self.turns {
            turns.conclude(TestEnd::Unknown);
        }
    }
}

impl Texts {
    pub(super) fn new(turns: Option<Arc<dyn Turns>>) -> Texts {
        Texts {
            functions: Mutex::default(),
            hooks: Hooks::new(),
            most_bytes: Arc::new(AtomicUsize::new(MOST_BYTES)),
            turns,
        }
    }

    /// Returns the closures that are called with events.
    pub(crate) fn hooks(&self) -> &Hooks {
        &self.hooks
    }

    /// Cuts texts that have more bytes than this, from now on.
    pub(super) fn cut_at(&self, bytes: usize) {
        self.most_bytes.store(bytes, Ordering::Relaxed);
    }

    /// Holds a function.
    pub(super) fn hold<T>(
        self: &Arc<Texts>,
        function: impl Fn(&T) -> String + Send + Sync + 'static,
    ) -> TextOf<T> {
        let function = Arc::new(function);
        let mut functions = lock(&self.functions);
        let number = functions.next;
        functions.next += 1;
        functions.by_number.insert(number, function.clone());
        TextOf(Source::Held(HeldFunction {
            function: Arc::downgrade(&function) as _,
            held_by: Arc::downgrade(self),
            number,
            most_bytes: self.most_bytes.clone(),
        }))
    }
}

impl<T> TextOf<T> {
    /// What gives texts to values whose type is known, until a function is given.
    pub(crate) fn known() -> TextOf<T> {
        TextOf(Source::Known(OnceLock::new()))
    }

    /// Uses this function from now on, if there is none. Returns whether it does.
    pub(crate) fn give(&self, given: TextOf<T>) -> bool {
        match (&self.0, given.0) {
            (Source::Known(own), Source::Held(given)) => own.set(given).is_ok(),
            _ => false,
        }
    }

    /// Returns the text of a value, if there is a function for it or its type is known.
    pub(crate) fn text(&self, value: &T) -> Option<String> {
        match &self.0 {
            Source::Held(held) => held.text(value),
            Source::Known(given) => match given.get() {
                Some(held) => held.text(value),
                None => erased::text_of(value),
            },
        }
    }

    /// Returns the text of a value that is locked. Where user code that the test doesn't ask for
    /// would make it, that is later, of a clone.
    pub(crate) fn text_in_place<'a>(&self, value: &T) -> (Option<String>, Option<LaterText<'a>>)
    where
        T: 'a,
    {
        match &self.0 {
            Source::Known(given) if given.get().is_none() => match erased::known_text_of(value) {
                None => (None, erased::later_text_of(value)),
                text => (text, None),
            },
            _ => (self.text(value), None),
        }
    }
}

impl<T> HeldFunction<T> {
    /// Returns the text of a value, if the recorder still holds the function.
    fn text(&self, value: &T) -> Option<String> {
        let text = self.function.upgrade().map(|function| function(value))?;
        let most = self.most_bytes.load(Ordering::Relaxed);
        Some(if text.len() > most {
            at_most(&text, most)
        } else {
            text
        })
    }
}

impl<T> Drop for HeldFunction<T> {
    fn drop(&mut self) {
        let Some(texts) = self.held_by.upgrade() else {
            return;
        };
        let function = lock(&texts.functions).by_number.remove(&self.number);
        // This runs user code, so nothing is locked here.
        drop(function);
    }
}
