//! A recorded run as a debugger holds it: it is at a place, goes to others, and is asked what the
//! channels were there.
//!
//! Place n is the run after call n, and place 0 is its start. At each place the channels are what
//! tokio documents after these calls, however you got there. That is proved of the core, which
//! `ttd` walks by too. A move by one place takes the time of one call, and allocates nothing.
//!
//! ```
//! use yovanelum::debugger::{Channel, Condition, Walk};
//!
//! let journal = "ttd-journal 2\nbroadcast 2\nsteps\n\
//!     1 0 0 send 0 0 = sent 1\n2 0 0 send 0 1 = sent 1\n3 0 0 send 0 2 = sent 1\n4 0 0 try-recv 1 = lagged 1\nend\n";
//! let mut walk = Walk::open(journal.as_bytes())?;
//! // Which call made receiver 1 of channel 0 lag?
//! assert_eq!(walk.find_back(&Condition::lagging(0, 1)), Some(3));
//! assert_eq!(walk.entry(3).unwrap().to_string(), "3 0 0 send 0 2 = sent 1");
//! let Some(Channel::Broadcast(prices)) = walk.channel(0) else {
//!     unreachable!()
//! };
//! assert_eq!(prices.window().collect::<Vec<_>>(), [1, 2]);
//! assert_eq!(prices.receiver(1).unwrap().lag, 1);
//! # Ok::<(), yovanelum::debugger::JournalError>(())
//! ```

mod channel;
mod condition;
mod entry;
mod journal_error;
pub mod named;
#[doc(hidden)]
pub mod recorded;
mod state;
#[cfg(test)]
mod tests;

pub use channel::{Broadcast, BroadcastReceiver, Channel, Watch, WatchReceiver};
pub use condition::Condition;
pub use entry::Entry;
pub use journal_error::JournalError;
pub use state::State;
pub use yovanelum_record::conditions::NoCondition;

use std::fmt;
use std::iter::successors;
use yovanelum_core::shim::alloc::Global;
use yovanelum_core::source::rw_navigator::{Cond, Debugger, HitIndex, Move};
use yovanelum_core::source::rw_world::World;
use yovanelum_record::journal::Run;

/// A run, and a place in it.
pub struct Walk {
    debugger: Debugger<u64>,
}

impl Walk {
    /// Opens the run of a journal text, at its last place. All memory that its moves will need is
    /// allocated here.
    ///
    /// # Errors
    ///
    /// Returns the first error in the text, as `ttd check` does, or that there is no memory.
    ///
    /// ```
    /// use yovanelum::debugger::Walk;
    ///
    /// let journal = "ttd-journal 2\nbroadcast 2\nsteps\n1 0 0 send 0 0 = sent 1\nend\n";
    /// assert_eq!(Walk::open(journal.as_bytes())?.place(), 1);
    /// let wrong = journal.replace("sent 1", "sent 2");
    /// let error = Walk::open(wrong.as_bytes()).unwrap_err();
    /// assert_eq!(error.to_string(), "journal fault wrong-reply 4");
    /// assert_eq!(error.line(), Some(4));
    /// # Ok::<(), yovanelum::debugger::JournalError>(())
    /// ```
    pub fn open(text: &[u8]) -> Result<Walk, JournalError> {
        Walk::over(&Run::read(text).map_err(JournalError)?)
    }

    /// Opens the run of a journal text that may be truncated, as it is where a program was killed:
    /// the calls of its whole lines. Returns also how many bytes these lines have.
    ///
    /// # Errors
    ///
    /// Returns the first error in the text, if it isn't only truncated, or that there is no memory.
    ///
    /// ```
    /// use yovanelum::debugger::Walk;
    ///
    /// let truncated = "ttd-journal 2\nbroadcast 2\nsteps\n1 0 0 send 0 0 = sent 1\n2 0 0 se";
    /// assert!(Walk::open(truncated.as_bytes()).unwrap_err().is_truncated());
    /// let (walk, bytes) = Walk::salvage(truncated.as_bytes())?;
    /// assert_eq!((walk.len(), bytes), (1, truncated.len() - "2 0 0 se".len()));
    /// # Ok::<(), yovanelum::debugger::JournalError>(())
    /// ```
    pub fn salvage(text: &[u8]) -> Result<(Walk, usize), JournalError> {
        let (run, bytes) = Run::salvage(text).map_err(JournalError)?;
        Ok((Walk::over(&run)?, bytes))
    }

    /// Opens a run at its last place, with a copy of it.
    fn over(run: &Run) -> Result<Walk, JournalError> {
        let mut debugger = run.debugger().map_err(JournalError)?;
        let _ = debugger.step(Move::End);
        Ok(Walk { debugger })
    }

    /// How many calls the run has. This is also the last place.
    ///
    /// ```
    /// # use yovanelum::debugger::Walk;
    /// # let journal = "ttd-journal 2\nbroadcast 2\nsteps\n1 0 0 send 0 0 = sent 1\nend\n";
    /// # let walk = Walk::open(journal.as_bytes())?;
    /// assert_eq!(walk.len(), 1);
    /// # Ok::<(), yovanelum::debugger::JournalError>(())
    /// ```
    pub fn len(&self) -> u64 {
        self.debugger.len()
    }

    /// Whether the run has no call.
    ///
    /// ```
    /// # use yovanelum::debugger::Walk;
    /// let journal = "ttd-journal 2\nbroadcast 2\nsteps\nend\n";
    /// assert!(Walk::open(journal.as_bytes())?.is_empty());
    /// # Ok::<(), yovanelum::debugger::JournalError>(())
    /// ```
    pub fn is_empty(&self) -> bool {
        self.debugger.is_empty()
    }

    /// The place that the walk is at: how many calls have been made.
    ///
    /// ```
    /// # use yovanelum::debugger::Walk;
    /// # let journal = "ttd-journal 2\nbroadcast 2\nsteps\n1 0 0 send 0 0 = sent 1\nend\n";
    /// let mut walk = Walk::open(journal.as_bytes())?;
    /// walk.back();
    /// assert_eq!(walk.place(), 0);
    /// # Ok::<(), yovanelum::debugger::JournalError>(())
    /// ```
    pub fn place(&self) -> u64 {
        self.debugger.place()
    }

    /// Goes to a place. Returns `false` if there is none of this number, and stays where it is.
    ///
    /// It makes or takes back each call on the way.
    ///
    /// ```
    /// # use yovanelum::debugger::Walk;
    /// # let journal = "ttd-journal 2\nbroadcast 2\nsteps\n1 0 0 send 0 0 = sent 1\nend\n";
    /// let mut walk = Walk::open(journal.as_bytes())?;
    /// assert!(walk.go_to(0));
    /// assert!(!walk.go_to(2));
    /// assert_eq!(walk.place(), 0);
    /// # Ok::<(), yovanelum::debugger::JournalError>(())
    /// ```
    pub fn go_to(&mut self, place: u64) -> bool {
        self.debugger.step(Move::Goto(place)).is_ok()
    }

    /// Goes back by one place: the last call is taken back. Returns `false` at place 0, and stays
    /// there.
    ///
    /// ```
    /// # use yovanelum::debugger::Walk;
    /// # let journal = "ttd-journal 2\nbroadcast 2\nsteps\n1 0 0 send 0 0 = sent 1\nend\n";
    /// let mut walk = Walk::open(journal.as_bytes())?;
    /// assert!(walk.back());
    /// assert!(!walk.back());
    /// # Ok::<(), yovanelum::debugger::JournalError>(())
    /// ```
    pub fn back(&mut self) -> bool {
        self.debugger.step(Move::Back(1)).is_ok()
    }

    /// Goes on by one place: the next call is made. Returns `false` at the last place, and stays
    /// there.
    ///
    /// ```
    /// # use yovanelum::debugger::Walk;
    /// # let journal = "ttd-journal 2\nbroadcast 2\nsteps\n1 0 0 send 0 0 = sent 1\nend\n";
    /// let mut walk = Walk::open(journal.as_bytes())?;
    /// walk.go_to(0);
    /// assert!(walk.forward());
    /// assert!(!walk.forward());
    /// # Ok::<(), yovanelum::debugger::JournalError>(())
    /// ```
    pub fn forward(&mut self) -> bool {
        self.debugger.step(Move::Forward(1)).is_ok()
    }

    /// Returns the entry of the call that leads to a place, wherever the walk is. No call leads to
    /// place 0.
    ///
    /// ```
    /// # use yovanelum::debugger::Walk;
    /// # let journal = "ttd-journal 2\nbroadcast 2\nsteps\n1 0 0 send 0 0 = sent 1\nend\n";
    /// # let walk = Walk::open(journal.as_bytes())?;
    /// assert_eq!(walk.entry(1).unwrap().call(), "send");
    /// assert!(walk.entry(0).is_none());
    /// assert!(walk.entry(2).is_none());
    /// # Ok::<(), yovanelum::debugger::JournalError>(())
    /// ```
    pub fn entry(&self, place: u64) -> Option<Entry> {
        self.debugger.entry(place.checked_sub(1)?).map(Entry::of)
    }

    /// Goes back to the nearest hit of a condition before the place, and returns it. Without one it
    /// stays where it is.
    ///
    /// The first search for a condition on calls lists its hits, and later ones look them up there.
    ///
    /// ```
    /// # use yovanelum::debugger::{Condition, Walk};
    /// # let journal = "ttd-journal 2\nbroadcast 2\nsteps\n1 0 0 send 0 0 = sent 1\n2 0 0 recv 1 = value 0\nend\n";
    /// let mut walk = Walk::open(journal.as_bytes())?;
    /// assert_eq!(walk.find_back(&Condition::unread(0, 1, 1)), Some(1));
    /// assert_eq!(walk.find_back(&Condition::unread(0, 1, 1)), None);
    /// assert_eq!(walk.place(), 1);
    /// # Ok::<(), yovanelum::debugger::JournalError>(())
    /// ```
    pub fn find_back(&mut self, condition: &Condition) -> Option<u64> {
        let place = self.place();
        let Some(index) = self.index(condition) else {
            return self.debugger.back_to(&condition.0);
        };
        let hit = index.before(place)?;
        self.go_to(hit);
        Some(hit)
    }

    /// Goes on to the nearest hit of a condition after the place, and returns it. Without one it
    /// stays where it is.
    ///
    /// ```
    /// # use yovanelum::debugger::{Condition, Walk};
    /// # let journal = "ttd-journal 2\nbroadcast 2\nsteps\n1 0 0 send 0 0 = sent 1\n2 0 0 recv 1 = value 0\nend\n";
    /// let mut walk = Walk::open(journal.as_bytes())?;
    /// walk.go_to(0);
    /// assert_eq!(walk.find_forward(&Condition::actor(0)), Some(1));
    /// assert_eq!(walk.find_forward(&Condition::actor(0)), Some(2));
    /// assert_eq!(walk.find_forward(&Condition::actor(0)), None);
    /// # Ok::<(), yovanelum::debugger::JournalError>(())
    /// ```
    pub fn find_forward(&mut self, condition: &Condition) -> Option<u64> {
        let place = self.place();
        let Some(index) = self.index(condition) else {
            return self.debugger.forward_to(&condition.0);
        };
        let hit = index.after(place)?;
        self.go_to(hit);
        Some(hit)
    }

    /// Returns the index of a condition on calls, or `None` if memory runs out. The first search of
    /// the condition makes it.
    fn index(&mut self, condition: &Condition) -> Option<&HitIndex<World<u64>, Cond>> {
        self.debugger.keep_index(Global, condition.0);
        self.debugger.index_of(condition.0)
    }

    /// Counts the hits of a condition from the start to the place, with the place itself. The walk
    /// is at the same place then.
    ///
    /// For a condition on states, it makes the calls up to there again.
    ///
    /// ```
    /// # use yovanelum::debugger::{Condition, Walk};
    /// # let journal = "ttd-journal 2\nbroadcast 2\nsteps\n1 0 0 send 0 0 = sent 1\n2 0 0 recv 1 = value 0\nend\n";
    /// let mut walk = Walk::open(journal.as_bytes())?;
    /// assert_eq!(walk.hits_so_far(&Condition::actor(0)), 2);
    /// walk.back();
    /// assert_eq!(walk.hits_so_far(&Condition::actor(0)), 1);
    /// # Ok::<(), yovanelum::debugger::JournalError>(())
    /// ```
    pub fn hits_so_far(&mut self, condition: &Condition) -> u64 {
        let here = self.place();
        if let Some(index) = self.index(condition) {
            let hits = successors(index.after(0), |hit| index.after(*hit));
            return hits.take_while(|hit| *hit <= here).count() as u64;
        }
        let mut hits = 0;
        self.go_to(0);
        while self.find_forward(condition).is_some_and(|hit| hit <= here) {
            hits += 1;
        }
        self.go_to(here);
        hits
    }

    /// How many channels the run has. They have the numbers from 0 on.
    ///
    /// ```
    /// # use yovanelum::debugger::Walk;
    /// let journal = "ttd-journal 2\nbroadcast 2\nwatch 0\nsteps\nend\n";
    /// assert_eq!(Walk::open(journal.as_bytes())?.channels(), 2);
    /// # Ok::<(), yovanelum::debugger::JournalError>(())
    /// ```
    pub fn channels(&self) -> u32 {
        self.debugger.specs().len() as u32
    }

    /// Returns a channel as it is at the place, or `None` if there is none of this number.
    ///
    /// ```
    /// # use yovanelum::debugger::{Channel, Walk};
    /// let journal = "ttd-journal 2\nwatch 0\nsteps\n1 0 0 send 0 1 = stored\nend\n";
    /// let walk = Walk::open(journal.as_bytes())?;
    /// let Some(Channel::Watch(level)) = walk.channel(0) else {
    ///     unreachable!()
    /// };
    /// assert_eq!(level.value(), 1);
    /// # Ok::<(), yovanelum::debugger::JournalError>(())
    /// ```
    #[inline]
    pub fn channel(&self, channel: u32) -> Option<Channel<'_>> {
        let machine = self.debugger.state().channel(channel as usize)?;
        Some(Channel::of(machine))
    }

    /// Returns what all channels are at the place, to be printed as the console's `state` prints
    /// it.
    ///
    /// ```
    /// # use yovanelum::debugger::Walk;
    /// let journal = "ttd-journal 2\nbroadcast 2\nsteps\n1 0 0 send 0 0 = sent 1\nend\n";
    /// let walk = Walk::open(journal.as_bytes())?;
    /// let wanted = "place 1 of 1\nchannel 0 broadcast capacity 2 sent 1 queued 1 made 2 open\n\
    ///     window 0\nsenders 0\nreceiver 1 position 0 unread 1 lag 0\n";
    /// assert_eq!(walk.state().to_string(), wanted);
    /// # Ok::<(), yovanelum::debugger::JournalError>(())
    /// ```
    pub fn state(&self) -> State<'_> {
        State(self)
    }
}

impl fmt::Debug for Walk {
    fn fmt(&self, f: &mut fmt::Formatter<'_>) -> fmt::Result {
        let mut walk = f.debug_struct("Walk");
        walk.field("place", &self.place()).field("len", &self.len());
        walk.finish_non_exhaustive()
    }
}
