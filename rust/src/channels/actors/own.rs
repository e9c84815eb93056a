//! What a thread has of the caller that it runs. A future with a name keeps it while it isn't
//! polled.

use super::caller::{CACHED, CALLER, CachedActor, CallerNumber, NAME, NOT_CACHED};
use super::origin::{Origin, WITHIN, Within};
use std::mem::swap;
use std::sync::Arc;

/// A caller of its own: a future with a name, or a task.
pub(super) struct OwnCaller {
    // That of a task which nobody named isn't made before it is asked for.
    name: Option<Arc<str>>,
    number: CallerNumber,
    cached: CachedActor,
    within: Within,
}

impl OwnCaller {
    /// A future with this name.
    pub(super) fn named(name: &str) -> OwnCaller {
        OwnCaller {
            name: Some(name.into()),
            number: CallerNumber::next(),
            cached: NOT_CACHED,
            within: Within::named(),
        }
    }

    /// A task that comes from there, if that is known.
    pub(super) fn task(origin: Option<Origin>) -> OwnCaller {
        OwnCaller {
            name: None,
            number: CallerNumber::NONE_YET,
            cached: NOT_CACHED,
            within: Within::task(origin),
        }
    }

    /// Returns its name. That of a task which nobody named is made now.
    pub(super) fn name(&mut self) -> Option<&Arc<str>> {
        if self.name.is_none() {
            let origin = self.within.origin();
            self.name = origin.map(|origin| origin.to_string().into());
        }
        self.name.as_ref()
    }

    /// Returns its name, if that is made.
    pub(super) fn known_name(&self) -> Option<&str> {
        self.name.as_deref()
    }

    /// Returns the number of the recorder of its last call, if it has made one.
    pub(super) fn recorder(&self) -> Option<u64> {
        Some(self.cached.recorder).filter(|recorder| *recorder != 0)
    }

    /// Makes the calls of this thread those of this caller, until the guard is dropped.
    pub(super) fn enter(&mut self) -> EnteredCaller<'_> {
        self.swap_with_thread();
        EnteredCaller(self)
    }

    fn swap_with_thread(&mut self) {
        self.cached = CACHED.replace(self.cached);
        self.number = CALLER.replace(self.number);
        // At the end of a thread, these may be destroyed before the future is dropped.
        let _ = NAME.try_with(|name| swap(&mut *name.borrow_mut(), &mut self.name));
        let _ = WITHIN.try_with(|within| swap(&mut *within.borrow_mut(), &mut self.within));
    }
}

/// While this is alive, the calls of this thread are made by a caller of its own. It is dropped
/// also if the caller panics.
pub(super) struct EnteredCaller<'a>(&'a mut OwnCaller);

impl Drop for EnteredCaller<'_> {
    fn drop(&mut self) {
        self.0.swap_with_thread();
    }
}
