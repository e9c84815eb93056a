//! The core, as this crate calls it: channels with their journals, and the runs of journal texts.
//!
//! The core is the proved source in `source/`. What its functions require of a caller is a type
//! here: the number of an actor is an [`Actor`], which is below 64.

mod flight;
#[cfg(test)]
mod telling;
#[cfg(test)]
mod tests;

pub(crate) use flight::{ENTRIES_AT_MOST, Kept, LEAD, Lead, MOST_CHUNK, Window, WindowFault};
pub(crate) use yovanelum_core::source::rw_recording::{CutFault, OpenFault, Spec};

use std::task::Waker;
use yovanelum_core::shim::Vec;
use yovanelum_core::shim::alloc::Global;
use yovanelum_core::source::rw_journal::CallForm;
use yovanelum_core::source::rw_law::NoMemory;
use yovanelum_core::source::rw_recording::{self, BCall as B, ChanCall, Flight, Kind, WCall as W};
use yovanelum_core::source::rw_steps::{self, Records, Told};
use yovanelum_record::calls::with_calls;
use yovanelum_record::journal::Run;
use yovanelum_record::operation::Operation;
use yovanelum_record::reply::Reply;

/// The number of an actor, below 64.
#[derive(Clone, Copy, Debug, PartialEq, Eq)]
pub(crate) struct Actor(u32);

impl Actor {
    /// The actor 0.
    pub(crate) const FIRST: Actor = Actor(0);

    /// How many actors there can be.
    pub(crate) const MOST: usize = 64;

    /// The last one of a flight recorder that calls, since another one leads to windows.
    pub(crate) const LAST_CALLER: Actor = Actor(Actor::MOST as u32 - 2);

    /// Returns the actor with this number, or the last one if the number is too great.
    pub(crate) fn of(number: usize) -> Actor {
        Actor(number.min(Actor::MOST - 1) as u32)
    }

    #[inline]
    pub(crate) fn number(self) -> u32 {
        self.0
    }

    /// The bit that stands for this actor in a set of them.
    #[inline(always)]
    pub(crate) fn bit(self) -> u64 {
        1 << self.0
    }
}

/// The actor of a call, and the clock of its recorder. If the call is recorded, its stamp is one
/// more than the clock.
// Two numbers are passed in registers, and three in memory.
#[derive(Clone, Copy)]
pub(crate) struct Caller {
    pub(crate) actor: Actor,
    pub(crate) clock: u64,
}

impl Caller {
    /// Whoever calls where the channel has no recorder, and so keeps no last calls. Such a call has
    /// no stamp, and no clock comes so far.
    pub(crate) const UNRECORDED: Caller = Caller {
        actor: Actor::FIRST,
        clock: u64::MAX,
    };
}

/// A channel of the core with its journal: all of its calls, the last ones, or those before its
/// recording has ended.
pub(crate) struct Recording {
    // Of a channel with its last calls, another one that has ended. So a call that is recorded asks
    // no more than whether this one has.
    all: rw_recording::Recording,
    last: Option<Box<Flight>>,
}

impl Recording {
    /// Opens a channel with sender 0 and receiver 1.
    pub(crate) fn open(spec: Spec<u64>) -> Result<Recording, OpenFault> {
        let all = rw_recording::Recording::open(Global, spec)?;
        Ok(Recording { all, last: None })
    }

    /// Opens a channel whose calls aren't recorded.
    pub(crate) fn open_unrecorded(spec: Spec<u64>) -> Result<Recording, OpenFault> {
        let all = rw_recording::Recording::open_unrecorded(Global, spec)?;
        Ok(Recording { all, last: None })
    }

    /// Opens a channel that keeps its last calls: between this many and twice as many.
    pub(crate) fn open_flight(spec: Spec<u64>, chunk: usize) -> Result<Recording, OpenFault> {
        let flight = Flight::open(Global, spec, chunk)?;
        Ok(Recording {
            all: nothing()?,
            last: Some(Box::new(flight)),
        })
    }

    /// Goes on with the last calls alone. It makes each call again. At an error nothing has
    /// changed.
    pub(crate) fn keep_last(&mut self, chunk: usize) -> Result<(), NoMemory> {
        if self.last.is_none() {
            let flight = flight_of(&self.all, chunk)?;
            self.all = nothing().map_err(|_| NoMemory)?;
            self.last = Some(Box::new(flight));
        }
        Ok(())
    }

    /// Ends recording: later calls are made as before, and leave no entry.
    pub(crate) fn end(&mut self) {
        self.all.end();
    }

    /// Whether all calls are recorded.
    #[inline]
    pub(crate) fn is_recorded(&self) -> bool {
        self.all.is_recorded()
    }

    /// Whether the last calls alone are kept.
    pub(crate) fn keeps_last(&self) -> bool {
        self.last.is_some()
    }

    /// Copies the last calls of the channel, and how it was before them. Of one that has recorded
    /// all of its calls, it makes them again, and keeps at least this many.
    pub(crate) fn kept(&self, chunk: usize) -> Result<Kept, NoMemory> {
        let kept = match &self.last {
            Some(flight) => flight.kept(Global),
            None => flight_of(&self.all, chunk)?.kept(Global),
        };
        kept.map(Kept::of)
    }

    /// Gives the chunks of the last calls this size or, if fewer calls are kept and others were
    /// dropped, the size of what is kept. Returns the size.
    pub(crate) fn resize_chunks(&mut self, size: usize) -> Option<usize> {
        let flight = self.last.as_mut()?;
        let kept = flight.len() as usize;
        let sizes = [size, size.min(kept)];
        let mut sizes = sizes.iter().copied();
        sizes.find(|size| *size > 0 && flight.resize(*size))
    }

    /// Forgets the calls from before a renumbering, if as many later ones as a chunk has are kept.
    pub(crate) fn forget_past(&mut self) {
        if let Some(flight) = &mut self.last {
            flight.forget_past();
        }
    }

    /// Whether the last calls are kept by the numbers that handles had before a renumbering.
    pub(crate) fn keeps_past(&self) -> bool {
        self.last.as_ref().is_some_and(|flight| flight.is_joined())
    }

    /// Takes the dropped handles out of a channel of which not all calls are recorded: those that
    /// are alive get the numbers 0, 1, 2, .., in the order of those that they had. Returns the
    /// numbers that they had, or `None` if there is no memory for it, and nothing has changed. A
    /// channel with its last calls keeps these by the numbers that handles had.
    pub(crate) fn renumber(&mut self) -> Option<Vec<u32>> {
        match &mut self.last {
            Some(flight) => flight.renumber(Global).ok().flatten(),
            None => self.all.renumber(Global).ok().flatten(),
        }
    }

    /// Returns the spec that the channel was opened from.
    pub(crate) fn spec(&self) -> Spec<u64> {
        match &self.last {
            Some(flight) => flight.spec(),
            None => self.all.spec(),
        }
    }

    /// Returns which recorded call is the first of the last `count` sends, where all calls are
    /// recorded: how many were recorded before it, and the number of its actor.
    pub(crate) fn send_before_last(&self, count: u64) -> Option<(usize, Actor)> {
        let mut later = count.checked_sub(1)?;
        for (before, call) in self.all.calls().iter().enumerate().rev() {
            match call.call.to_call() {
                ChanCall::B(B::Send(..)) if later > 0 => later -= 1,
                ChanCall::B(B::Send(..)) => {
                    return Some((before, Actor::of(call.actor as usize)));
                }
                _ => {}
            }
        }
        None
    }

    /// Returns which actors have made the calls after the first `count`, where all calls are
    /// recorded: a bit for each number. Also returns how many calls there are.
    pub(crate) fn actors_after(&self, count: usize) -> (u64, usize) {
        let calls = self.all.calls();
        let new = calls.iter().skip(count);
        let actors = new.fold(0, |all, call| all | Actor::of(call.actor as usize).bit());
        (actors, calls.len())
    }

    /// How many calls are kept.
    pub(crate) fn entries(&self) -> u64 {
        match &self.last {
            Some(flight) => flight.past_len() + flight.len(),
            None => self.all.len(),
        }
    }

    fn alive(&self, kind: Kind) -> u64 {
        match &self.last {
            Some(flight) => flight.alive(kind),
            None => self.all.alive(kind),
        }
    }

    /// How many senders are alive.
    pub(crate) fn senders(&self) -> u64 {
        self.alive(Kind::Sender)
    }

    /// How many weak senders are alive.
    pub(crate) fn weak_senders(&self) -> u64 {
        self.alive(Kind::Weak)
    }

    /// How many receivers are alive.
    pub(crate) fn receivers(&self) -> u64 {
        self.alive(Kind::Receiver)
    }

    /// How many values a broadcast retains for some receiver.
    pub(crate) fn queued(&self) -> u64 {
        match &self.last {
            Some(flight) => flight.queued(),
            None => self.all.queued(),
        }
    }

    /// How many values a receiver of a broadcast has yet to receive.
    pub(crate) fn unread(&self, receiver: u32) -> u64 {
        let unread = match &self.last {
            Some(flight) => flight.unread(receiver),
            None => self.all.unread(receiver),
        };
        unread.expect("a live receiver of a broadcast")
    }

    /// Whether a receiver of a watch has seen its value.
    #[inline]
    pub(crate) fn seen(&self, receiver: u32) -> bool {
        let seen = match &self.last {
            Some(flight) => flight.is_seen(receiver),
            None => self.all.is_seen(receiver),
        };
        seen.expect("a live receiver of a watch")
    }

    /// Makes any call. Without optimization all are made here: what the core inlines would be
    /// compiled for each, which was three of ten bytes of the library's code, and be no faster. A
    /// build that is optimized with debug assertions has a sixth more instructions of it.
    #[inline(never)]
    fn call_any(&mut self, caller: Caller, call: ChanCall<u64>) -> Reply {
        match &mut self.last {
            Some(flight) if !self.all.is_recorded() => {
                call_of::<false, _>(&mut **flight, caller, call)
            }
            _ => call_of::<false, _>(&mut self.all, caller, call),
        }
    }

    /// As [`call_any`](Recording::call_any), of a call that drops a handle while some call waits.
    /// Returns what it tells.
    #[inline(never)]
    fn step_any(&mut self, caller: Caller, call: ChanCall<u64>) -> (Reply, Told) {
        let (actor, clock) = (caller.actor.0, caller.clock);
        match &mut self.last {
            Some(flight) if !self.all.is_recorded() && caller.clock != Caller::UNRECORDED.clock => {
                rw_steps::step(&mut **flight, actor, clock, call)
            }
            _ => rw_steps::step(&mut self.all, actor, clock, call),
        }
    }

    /// Makes a call where not all calls are recorded.
    // As the methods that call this, which also stand where a channel has several machines.
    #[cfg_attr(not(debug_assertions), inline(always))]
    fn call_apart<const OF_HANDLES: bool>(
        &mut self,
        caller: Caller,
        call: impl FnOnce() -> ChanCall<u64>,
    ) -> Reply {
        if caller.clock == Caller::UNRECORDED.clock {
            return call_of::<OF_HANDLES, _>(&mut self.all, caller, call());
        }
        match &mut self.last {
            Some(flight) => call_last::<OF_HANDLES>(flight, caller, call),
            None => call_of::<OF_HANDLES, _>(&mut self.all, caller, call()),
        }
    }
}

/// Makes a call that is kept among the last ones.
#[cfg_attr(debug_assertions, inline(never))]
#[cfg_attr(not(debug_assertions), inline(always))]
fn call_last<const OF_HANDLES: bool>(
    flight: &mut Flight,
    caller: Caller,
    call: impl FnOnce() -> ChanCall<u64>,
) -> Reply {
    call_of::<OF_HANDLES, _>(flight, caller, call())
}

/// Makes a call of the core.
#[inline(always)]
fn call_of<const OF_HANDLES: bool, C: Records>(
    channel: &mut C,
    caller: Caller,
    call: ChanCall<u64>,
) -> Reply {
    if OF_HANDLES {
        rw_steps::call_of_handles(channel, caller.actor.0, caller.clock, call)
    } else {
        rw_steps::call(channel, caller.actor.0, caller.clock, call)
    }
}

/// Goes on from a recording that hasn't ended with its last calls alone.
fn flight_of(all: &rw_recording::Recording, chunk: usize) -> Result<Flight, NoMemory> {
    Flight::of(Global, all, chunk).map_err(|_| NoMemory)
}

/// A small channel that nobody uses.
fn nothing() -> Result<rw_recording::Recording, OpenFault> {
    rw_recording::Recording::open_unrecorded(Global, Spec::Watch(0))
}

/// Whether a call creates or drops a handle.
const fn is_of_handles(word: Operation) -> bool {
    word.makes().is_some() || matches!(word, Operation::Drop)
}

/// The calls of the core by name: each becomes a method.
macro_rules! methods {
    ($($word:ident $text:literal $method:literal $done:literal $(makes $kind:ident)? [$($set:ident)*]
        $($name:ident($($arg:ident: $type:ty),*) = $side:ident $variant:ident $args:tt)*
        $(=> $like:ident)?;)*) => {
        impl Recording {
            $($(#[inline(always)]
            pub(crate) fn $name(&mut self, caller: Caller, $($arg: $type),*) -> Reply {
                const OF_HANDLES: bool = is_of_handles(Operation::$word);
                if cfg!(debug_assertions) {
                    return self.call_any(caller, ChanCall::$side($side::$variant $args));
                }
                if !self.all.is_recorded() {
                    let call = move || ChanCall::$side($side::$variant $args);
                    return self.call_apart::<OF_HANDLES>(caller, call);
                }
                let call = ChanCall::$side($side::$variant $args);
                call_of::<OF_HANDLES, _>(&mut self.all, caller, call)
            })*)*
        }
    };
}

with_calls!(methods);

/// The futures that wait, each with its waker, once that is cloned.
pub(crate) type WakerList = rw_steps::Waiters<Option<Waker>>;

impl Recording {
    pub(crate) fn broadcast_drop_step(&mut self, caller: Caller, handle: u32) -> (Reply, Told) {
        self.step_any(caller, ChanCall::B(B::DropHandle(handle)))
    }

    pub(crate) fn watch_drop_step(&mut self, caller: Caller, handle: u32) -> (Reply, Told) {
        self.step_any(caller, ChanCall::W(W::DropHandle(handle)))
    }
}

/// What channels have recorded up to one stamp.
pub(crate) struct Cut(rw_recording::Cut);

impl Cut {
    pub(crate) fn new() -> Cut {
        Cut(rw_recording::Cut::new(Global))
    }

    /// Adds a channel, with its entries before the first that is stamped above `last`.
    pub(crate) fn add(&mut self, channel: &Recording, last: u64) -> Result<(), CutFault> {
        self.0.add(Global, &channel.all, last)
    }

    /// Adds a channel's window, in the same way.
    pub(crate) fn add_window(&mut self, window: &Window, last: u64) -> Result<(), CutFault> {
        self.0.add(Global, window.recording(), last)
    }

    /// Returns the run of all added channels.
    pub(crate) fn run(&self) -> Result<Run, CutFault> {
        self.0.run(Global).map(Run::of)
    }
}
