//! Who has sent last on a channel, and where, and who has made the last channel of a recorder.

use super::caller::{
    ARE_TASKS_TOLD, CALLER, CallerNumber, are_tasks_told, name_of_caller, own_number, write_caller,
};
use crate::channels::channel::CallSite;
use std::sync::Arc;
use std::sync::atomic::Ordering;

/// Who has made the last of some calls, and where. If the next one is by the same caller, its name
/// isn't copied again.
pub(crate) struct LastCaller {
    number: CallerNumber,
    // The caller's name, or nothing before the first call. It is written into the same memory each
    // time.
    name: String,
    called_at: CallSite,
}

impl Default for LastCaller {
    fn default() -> LastCaller {
        LastCaller {
            number: CallerNumber::NOBODY,
            name: String::new(),
            called_at: None,
        }
    }
}

impl LastCaller {
    /// Notes a call that the current caller makes here. It is the one of before if it has that
    /// number, and no runtime tells tasks of one thread apart.
    #[inline(always)]
    pub(crate) fn note(&mut self, called_at: CallSite) {
        self.called_at = called_at;
        if CALLER.get().0 != self.number.0 || ARE_TASKS_TOLD.load(Ordering::Acquire) {
            self.note_other();
        }
    }

    /// As [`note`](LastCaller::note), of the current caller by its number, which
    /// [`current`](super::current) has told for this call.
    #[inline(always)]
    pub(crate) fn note_of(&mut self, caller: CallerNumber, called_at: CallSite) {
        self.called_at = called_at;
        if caller.0 != self.number.0 {
            self.note_other();
        }
    }

    #[cold]
    #[inline(never)]
    fn note_other(&mut self) {
        self.number = write_caller(self.number, &mut self.name);
    }

    /// Returns the caller's name, if there was a call.
    pub(crate) fn name(&self) -> Option<&str> {
        (self.number != CallerNumber::NOBODY).then_some(&*self.name)
    }

    /// Returns where the call was made, if there was one.
    pub(crate) fn called_at(&self) -> CallSite {
        self.called_at
    }
}

/// The name of the last of some callers. If the next one is the same, its name isn't made again.
pub(crate) struct LastName {
    number: CallerNumber,
    name: Option<Arc<str>>,
}

impl Default for LastName {
    fn default() -> LastName {
        LastName {
            number: CallerNumber::NOBODY,
            name: None,
        }
    }
}

impl LastName {
    /// Returns the name of the current caller, as [`name_of_caller`] does.
    pub(crate) fn of_caller(&mut self) -> Option<Arc<str>> {
        if CALLER.get() != self.number || are_tasks_told() {
            // The tasks of one thread have its number.
            self.number = if are_tasks_told() {
                CallerNumber::NOBODY
            } else {
                own_number()
            };
            self.name = name_of_caller().map(Into::into);
        }
        self.name.clone()
    }
}
