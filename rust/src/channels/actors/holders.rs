//! Who has an actor's number: threads and named futures, as long as they are alive.

use super::caller::future;
use std::sync::{Arc, Weak};
use yovanelum_record::listed::Keep;
use yovanelum_record::numbered::NumberSet;

thread_local! {
    // Dropped where the thread ends.
    static ALIVE: Arc<()> = Arc::new(());
}

/// A thread or a named future that has got a number.
pub(super) enum Holder {
    Future(Weak<str>),
    Thread(Weak<()>),
    /// One whose end isn't known.
    Forever,
}

impl Holder {
    /// Returns the named future that this thread polls or drops, or else the thread.
    pub(super) fn current() -> Holder {
        match future() {
            Some(future) => Holder::Future(future),
            None => Holder::thread(),
        }
    }

    /// Returns this thread.
    pub(super) fn thread() -> Holder {
        // At the end of a thread it may be gone already.
        match ALIVE.try_with(Arc::downgrade) {
            Ok(thread) => Holder::Thread(thread),
            Err(_) => Holder::Forever,
        }
    }

    fn is_alive(&self) -> bool {
        match self {
            Holder::Future(future) => future.strong_count() > 0,
            Holder::Thread(thread) => thread.strong_count() > 0,
            Holder::Forever => true,
        }
    }

    /// Returns an address that no other holder has which is alive.
    fn address(&self) -> usize {
        match self {
            Holder::Future(future) => future.as_ptr().addr(),
            Holder::Thread(thread) => thread.as_ptr().addr(),
            Holder::Forever => 0,
        }
    }
}

/// A number whose holders are gone, with how often it had changed hands until then.
pub(crate) struct Unused {
    pub(super) number: usize,
    pub(super) changes: u64,
}

/// Those who have a number. Several futures may have one name, and so one number.
#[derive(Default)]
pub(super) struct Holders {
    /// How often the number was got or given away. It never falls, so who has looked before another
    /// gave the number away, and somebody got it, sees that.
    pub(super) changes: u64,
    all: Vec<Holder>,
    // When there are as many, those that are gone or here twice are removed.
    full_at: usize,
    is_given_away: bool,
}

impl Holders {
    /// Says that nobody has the number any more, and that it is to be given to somebody else.
    pub(super) fn give_away(&mut self) {
        *self = Holders {
            changes: self.changes + 1,
            is_given_away: true,
            ..Holders::default()
        };
    }

    /// Says that the number is somebody's again.
    pub(super) fn taken(&mut self) {
        self.is_given_away = false;
    }

    /// Says that the end of who has it isn't known.
    pub(super) fn never_end(&mut self) {
        self.all.push(Holder::Forever);
    }

    /// Adds one who has got the number.
    pub(super) fn add(&mut self, holder: Holder) {
        self.changes += 1;
        if self.all.len() >= self.full_at {
            let mut seen = NumberSet::new();
            self.all
                .keep(|holder| holder.is_alive() && seen.insert(holder.address()));
            self.full_at = 2 * self.all.len() + 4;
        }
        self.all.push(holder);
    }

    /// Whether all of them are gone, and the number isn't given away.
    pub(super) fn are_gone(&mut self) -> bool {
        self.all.retain(Holder::is_alive);
        !self.is_given_away && self.changes > 0 && self.all.is_empty()
    }
}
