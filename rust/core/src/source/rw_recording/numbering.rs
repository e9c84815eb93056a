//! The numbers that a channel's handles have in the journal of its window.
// From crates/rw_recording/src/numbering.rt, with its contracts as comments. //+
use crate::shim::Vec; //+

//~ ghost use Rattle.std.specs.Prelude.{◌≡◌, ◌≤◌, ◌<◌, ◌^◌, Some, true, length, IfOk, IfSome, IfNone};
//~ ghost use Rattle.rw_recording.specs.Goals.{AreNumbered, HasEach};
//~ ghost use Rattle.rw_recording.specs.Windows.{number_of};

use crate::source::rw_law::NoMemory;
use crate::shim::alloc::Global;

/// The numbers of handles in the journal of a window.
//~ #[derive(Drop)]
pub(crate) struct Numbering {
    // The handles that were alive before the window, by their numbers in the channel, and by those in the journal.
    pub before: Vec<u32>,
    pub after: Vec<u32>,
    // For each handle that was made before the window: its place among these. For one that was dropped, it is any number.
    pub places: Vec<u32>,
    // How many handles the lead makes. Those that are made in the window come next.
    pub made: u32,
}

/// Makes a list of zeros.
pub(crate) fn zeros(alloc: Global, count: u32) -> Result<Vec<u32>, NoMemory>
//~     ensures { IfOk result (λ numbers. length numbers.items ≡ count) }
{
    let mut numbers = Vec::with_capacity(alloc, count as usize)?;
    for _i in 0..count {
        numbers.push_reserved(0);
    }
    Ok(numbers)
}

/// Returns for each of this many handles its place in the list, or 0.
fn places_of(alloc: Global, count: u32, before: &[u32]) -> Result<Vec<u32>, NoMemory>
//~     requires { length before.now < 2 ^ 32 }
//~     ensures { IfOk result (λ places. length places.items ≡ count) }
{
    let mut places = zeros(alloc, count)?;
    for (i, handle) in before.iter().enumerate() {
        if (*handle as usize) < places.len() {
            places[*handle as usize] = i as u32;
        }
    }
    Ok(places)
}

impl Numbering {
    /// Makes the numbering by which live handle `before[i]`, of this many, has the number `after[i]`. There is none where two of them
    /// are the same.
    pub fn of(
        alloc: Global,
        count: u32,
        before: Vec<u32>,
        after: Vec<u32>,
        made: u32,
    ) -> Result<Option<Numbering>, NoMemory>
//~         ensures { IfOk result (λ some. IfSome some (AreNumbered before.items after.items count made)) }
    {
        if before.len() != after.len() || before.len() > count as usize {
            return Ok(None);
        }
        let places = places_of(alloc, count, &before)?;
        let numbering = Numbering {
            before,
            after,
            places,
            made,
        };
        if !numbering.has_each() {
            return Ok(None);
        }
        Ok(Some(numbering))
    }

    /// Whether each live handle has its number.
    fn has_each(&self) -> bool
//~         requires { length self.now.after.items ≡ length self.now.before.items }
//~         ensures { result ≡ true → HasEach self.now }
    {
        for i in 0..self.before.len() {
            if self.number(self.before[i]) != Some(self.after[i]) {
                return false;
            }
        }
        true
    }

    /// Returns the number of a handle of the channel, if it has one.
    pub fn number(&self, handle: u32) -> Option<u32>
//~         ensures some { IfSome result (λ number. number_of self.now handle ≡ Some number) }
//~         ensures none { IfNone result (IfSome (number_of self.now handle) (λ number. 2 ^ 32 ≤ number)) }
    {
        let Some(place) = self.places.get(handle as usize) else {
            return self.made.checked_add(handle - self.places.len() as u32);
        };
        match self.before.get(*place as usize) {
            Some(own) if *own == handle => self.after.get(*place as usize).copied(),
            _ => None,
        }
    }
}
