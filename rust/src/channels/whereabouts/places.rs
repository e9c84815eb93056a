//! The places where tasks wait, of the whole process. A stack is captured once for each.

use super::frames::{StackWalk, address_of};
use super::{WatchedTest, remembered};
use crate::channels::lock::lock;
use std::backtrace::Backtrace;
use std::collections::HashMap;
use std::panic::Location;
use std::ptr;
use std::sync::{Arc, LazyLock, Mutex};
use yovanelum_record::numbered::Numbered;

/// How many places are kept.
const MOST_PLACES: usize = 4096;

/// The number of a place.
#[derive(Clone, Copy, Debug, PartialEq, Eq, Hash, PartialOrd, Ord)]
pub(crate) struct PlaceNumber(u32);

impl Numbered for PlaceNumber {
    fn number(self) -> u64 {
        self.0.into()
    }
}

impl PlaceNumber {
    /// One that was not looked at.
    pub(crate) const UNKNOWN: PlaceNumber = PlaceNumber(0);
}

/// What is kept of a place, to be read when a report is written.
#[derive(Clone)]
pub(crate) enum KeptPlace {
    /// A call of a channel of this crate, which is made there.
    OwnCall(&'static str, &'static Location<'static>),
    Stack(Arc<Backtrace>),
}

#[derive(Default)]
struct KnownPlaces {
    // By return addresses, and by the addresses of locations.
    by_key: HashMap<u64, PlaceNumber>,
    // That of number 1 is first.
    kept: Vec<KeptPlace>,
}

static PLACES: LazyLock<Mutex<KnownPlaces>> = LazyLock::new(Mutex::default);

impl KnownPlaces {
    fn add(&mut self, key: Option<u64>, kept: KeptPlace) -> PlaceNumber {
        if self.kept.len() >= MOST_PLACES {
            return PlaceNumber::UNKNOWN;
        }
        self.kept.push(kept);
        let number = PlaceNumber(self.kept.len() as u32);
        if let Some(key) = key {
            self.by_key.insert(key, number);
        }
        number
    }
}

/// Returns what is kept of a place.
pub(crate) fn kept_place(number: PlaceNumber) -> Option<KeptPlace> {
    let index = number.0.checked_sub(1)?;
    lock(&PLACES).kept.get(index as usize).cloned()
}

/// Returns the current place, as far as the frame that has this address. One that isn't remembered
/// is looked at only if `may_look`, and what that costs is noted.
// Its frame is the first one that is compared: it is the same in each call.
#[inline(never)]
pub(super) fn here(
    watched: &WatchedTest,
    limit: Option<usize>,
    may_look: &dyn Fn(u64) -> bool,
) -> PlaceNumber {
    let mark = 0;
    let mark = address_of(&mark);
    if let Some(known) = limit.and_then(|limit| remembered::place(mark, limit)) {
        return known;
    }
    let now = watched.now();
    if !may_look(now) {
        return PlaceNumber::UNKNOWN;
    }
    let walk = StackWalk::from(mark, limit);
    let place = of_stack(walk.as_ref());
    if let (Some(walk), Some(limit)) = (walk, limit) {
        remembered::remember(mark, limit, &walk, place);
    }
    watched.budget.spend(watched.now().saturating_sub(now));
    place
}

/// Returns the current place by its whole stack. It is looked at each time.
#[inline(never)]
pub(crate) fn current_place() -> PlaceNumber {
    let mark = 0;
    of_stack(StackWalk::from(address_of(&mark), None).as_ref())
}

fn of_stack(walk: Option<&StackWalk>) -> PlaceNumber {
    let key = walk.map(|walk| walk.key);
    let known = key.and_then(|key| lock(&PLACES).by_key.get(&key).copied());
    known.unwrap_or_else(|| {
        // It is captured while nothing is locked.
        let stack = KeptPlace::Stack(Arc::new(Backtrace::force_capture()));
        lock(&PLACES).add(key, stack)
    })
}

/// Returns the place of a call of a channel of this crate. Its stack isn't needed.
pub(super) fn of_call(name: &'static str, at: &'static Location<'static>) -> PlaceNumber {
    let key = (ptr::from_ref(at).addr() as u64).rotate_left(32) ^ name.as_ptr().addr() as u64;
    let mut places = lock(&PLACES);
    let known = places.by_key.get(&key).copied();
    known.unwrap_or_else(|| places.add(Some(key), KeptPlace::OwnCall(name, at)))
}
