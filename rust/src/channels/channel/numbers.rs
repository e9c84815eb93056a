//! The numbers of a channel's handles, and where each of them is in the channel's machines.
//!
//! A handle keeps its number until it is dropped, while its machine may give it another one: a
//! machine that is full of dropped handles takes these out. Until that happens for the first time,
//! and until a further machine is opened, each handle has the number that its machine gave it. So
//! it is again after a renumbering by which each handle that is alive has its number there too.

use super::machine::MOST_HANDLES;
use std::collections::TryReserveError;
use std::mem;

/// A number that no handle has.
pub(super) const NO_NUMBER: u32 = u32::MAX;

/// Where a handle is: its number in its machine, and above these 16 bits the number of the machine.
#[derive(Clone, Copy)]
pub(super) struct Place(u32);

impl Place {
    #[inline]
    pub(super) fn new(machine: usize, handle: u32) -> Place {
        Place(machine as u32 * MOST_HANDLES + handle)
    }

    /// The number of the machine.
    #[inline(always)]
    pub(super) fn machine(self) -> usize {
        (self.0 / MOST_HANDLES) as usize
    }

    /// The handle's number there.
    #[inline(always)]
    pub(super) fn handle(self) -> u32 {
        self.0 % MOST_HANDLES
    }
}

/// Where each handle of a channel is, by its number.
#[derive(Default)]
pub(super) struct Numbers {
    // Most channels have none.
    own: Option<Box<OwnNumbers>>,
    // The numbers below this one are in the journal, or were there when recording ended. They
    // aren't used again.
    in_journal: u32,
}

/// The numbers of a channel whose handles have, or had, others than those of the first machine.
struct OwnNumbers {
    // Where each handle is, by its number. Where no handle has a number, the next such number.
    // Empty while each handle has the number that the first machine gave it.
    places: Vec<Place>,
    // How many handles the channel had created before each, by its number. While there are no
    // places, it is known of the first numbers, and each later one is of the next handle.
    nths: Vec<u64>,
    // The number that is used next, if a handle was dropped that had one of its own.
    free: u32,
    // How many handles were created before the first number that isn't in `nths`.
    created: u64,
}

impl OwnNumbers {
    /// The numbers of a channel of which each handle has the number that the first machine gave it.
    const OF_MACHINE: OwnNumbers = OwnNumbers {
        places: Vec::new(),
        nths: Vec::new(),
        free: NO_NUMBER,
        created: 0,
    };

    /// Notes of the handles below this number how many were created before. There are no places.
    fn know_until(&mut self, number: u32) {
        let nth = self.created;
        let more = u64::from(number).saturating_sub(self.nths.len() as u64);
        self.nths.extend(nth..nth + more);
        self.created += more;
    }

    /// How many handles the channel had created before the one with this number.
    fn nth(&self, number: u32) -> u64 {
        match self.nths.get(number as usize) {
            Some(nth) => *nth,
            None => self.created + u64::from(number) - self.nths.len() as u64,
        }
    }
}

impl Numbers {
    /// Says that the numbers below this one aren't to be used again, since a journal may have them.
    pub(super) fn keep(&mut self, in_journal: u32) {
        self.in_journal = in_journal;
    }

    /// Whether handles may have other numbers than those that their machine gave them.
    #[inline(always)]
    pub(super) fn are_own(&self) -> bool {
        match &self.own {
            None => false,
            Some(own) => !own.places.is_empty(),
        }
    }

    /// Those that aren't, or weren't always, the numbers of the machine.
    fn own(&mut self) -> &mut OwnNumbers {
        self.own
            .get_or_insert_with(|| Box::new(OwnNumbers::OF_MACHINE))
    }

    /// Reserves memory for numbers of their own, for the handles of a machine that has made this
    /// many.
    pub(super) fn reserve(&mut self, made: u32) -> Result<(), TryReserveError> {
        let own = self.own();
        own.places.try_reserve(made as usize)?;
        own.nths.try_reserve(made as usize)
    }

    /// Says that from now on handles may have other numbers than those that the machine gave them,
    /// which has made this many.
    pub(super) fn begin(&mut self, made: u32) {
        let own = self.own();
        own.places.extend((0..made).map(Place));
        own.know_until(made);
    }

    /// Whether handles may have the numbers of a machine in which these many are alive, and no
    /// others.
    pub(super) fn may_be_of_machine(&self, alive: usize) -> bool {
        alive >= self.in_journal as usize
    }

    /// Says that from now on each handle has the number that the first machine gave it, which had
    /// made `made` of them. Those that are alive have the numbers below `alive`.
    pub(super) fn be_of_machine(&mut self, alive: u32, made: u32) {
        let own = self.own();
        if own.places.is_empty() {
            let created = own.nth(made);
            own.know_until(alive);
            own.created = created;
        } else {
            own.places.clear();
        }
        own.nths.truncate(alive as usize);
        own.free = NO_NUMBER;
    }

    /// Returns where the handle with this number is, where handles may have other numbers than
    /// those that their machine gave them. Each call looks for it.
    #[inline(always)]
    pub(super) fn own_place(&self, number: u32) -> Option<Place> {
        // Most channels have none, and without optimization this is the fastest question.
        match &self.own {
            None => None,
            Some(own) => own.places.get(number as usize).copied(),
        }
    }

    /// Returns where the handle with this number is, where it has one of its own.
    #[inline]
    pub(super) fn place(&mut self, number: u32) -> Place {
        self.own().places[number as usize]
    }

    /// How many handles the channel had created before the one with this number.
    pub(super) fn nth(&self, number: u32) -> u64 {
        match &self.own {
            None => number.into(),
            Some(own) => own.nth(number),
        }
    }

    /// How many handles the channel has created, if the first machine has made `made` of them.
    pub(super) fn all_created(&self, made: u32) -> u64 {
        match &self.own {
            Some(own) if !own.places.is_empty() => own.created,
            _ => self.nth(made),
        }
    }

    /// Adds a handle that was created at this place, and returns its number.
    #[inline]
    pub(super) fn add(&mut self, place: Place) -> u32 {
        let own = self.own();
        let (number, nth) = (own.free, own.created);
        own.created += 1;
        if number == NO_NUMBER {
            own.places.push(place);
            own.nths.push(nth);
            return own.places.len() as u32 - 1;
        }
        let index = number as usize;
        own.free = mem::replace(&mut own.places[index], place).0;
        own.nths[index] = nth;
        number
    }

    /// Says that the handle with this number is at another place now.
    #[inline]
    pub(super) fn set_place(&mut self, number: u32, place: Place) {
        self.own().places[number as usize] = place;
    }

    /// Removes a handle that is dropped. Its number is used again, unless a journal may have it.
    #[inline]
    pub(super) fn remove(&mut self, number: u32) {
        if number >= self.in_journal {
            let own = self.own();
            own.places[number as usize] = Place(own.free);
            own.free = number;
        }
    }
}
