//! The handles of a channel that keeps its last calls: where each was created, and how many were
//! created before, by its number in the channel's table.

use super::CallSite;
use std::mem;
use yovanelum_core::lists::reserved;
use yovanelum_core::source::rw_law::NoMemory;
use yovanelum_record::listed::{IntoList, PushAll};

/// The handles of a table. Those that the table forgets are forgotten here too.
#[derive(Default)]
pub(crate) struct MadeHandles {
    // By the number in the table.
    sites: Vec<CallSite>,
    // How many handles were created before each of those that were alive at the last renumbering.
    survivors: Vec<u64>,
    // How many were created before the first one after these.
    next: u64,
}

impl MadeHandles {
    /// Those of a table that has these handles, each with how many were created before and where it
    /// was. `next` handles were created in all.
    pub(super) fn of(handles: Vec<(u64, CallSite)>, next: u64) -> MadeHandles {
        MadeHandles {
            sites: handles.iter().map(|(_, site)| *site).listed(),
            survivors: handles.iter().map(|(number, _)| *number).listed(),
            next,
        }
    }

    /// Returns where the handle was created before which `nth` others were.
    pub(super) fn made_at_nth(&self, nth: u64) -> CallSite {
        let number = match self.survivors.binary_search(&nth) {
            Ok(number) => number as u64,
            Err(_) => nth.checked_sub(self.next)? + self.survivors.len() as u64,
        };
        self.sites.get(number as usize).copied().flatten()
    }

    /// Adds a handle that was created here. Its number is the next one of the table.
    pub(super) fn add(&mut self, made_at: CallSite) {
        self.sites.push(made_at);
    }

    /// How many handles the table has.
    pub(crate) fn len(&self) -> u32 {
        self.sites.len() as u32
    }

    /// Returns where the handle with this number was created.
    pub(crate) fn made_at(&self, number: u32) -> CallSite {
        self.sites.get(number as usize).copied().flatten()
    }

    /// How many handles the channel had created before the one with this number.
    pub(crate) fn nth(&self, number: u32) -> u64 {
        match self.survivors.get(number as usize) {
            Some(nth) => *nth,
            None => self.next + u64::from(number) - self.survivors.len() as u64,
        }
    }

    /// Returns a copy, which has these sites more.
    fn with_sites(&self, more: &[CallSite]) -> Result<MadeHandles, NoMemory> {
        let mut sites = reserved(self.sites.len() + more.len())?;
        sites.extend_from_slice(&self.sites);
        sites.extend_from_slice(more);
        let mut survivors = reserved(self.survivors.len())?;
        survivors.extend_from_slice(&self.survivors);
        Ok(MadeHandles {
            sites,
            survivors,
            next: self.next,
        })
    }

    /// Returns a copy.
    pub(super) fn copy(&self) -> Result<MadeHandles, NoMemory> {
        self.with_sites(&[])
    }

    /// Becomes the list of those of other handles that are alive, which get the numbers 0, 1, 2, ..
    fn be_renumbered(&mut self, before: &MadeHandles, alive: &[u32]) {
        self.survivors.clear();
        self.survivors
            .push_all(alive.iter().map(|number| before.nth(*number)));
        self.sites.clear();
        self.sites
            .push_all(alive.iter().map(|number| before.made_at(*number)));
        self.next = before.nth(before.len());
    }
}

/// The handles of a table before it was renumbered.
#[derive(Default)]
pub(super) struct PastHandles {
    handles: MadeHandles,
    // The numbers of those that stayed.
    alive: Vec<u32>,
}

impl PastHandles {
    /// Becomes what these handles are, since their table is renumbered. They get the numbers 0, 1,
    /// 2, .. The memory of the lists is used again.
    pub(super) fn renumber(&mut self, handles: &mut MadeHandles, alive: &[u32]) {
        mem::swap(&mut self.handles, handles);
        handles.be_renumbered(&self.handles, alive);
        self.alive.clear();
        self.alive.extend_from_slice(alive);
    }

    /// Returns the number that a handle had before, or would have had if it was created later.
    pub(super) fn number(&self, handle: u32) -> u32 {
        match self.alive.get(handle as usize) {
            Some(number) => *number,
            None => self.handles.len() + handle - self.alive.len() as u32,
        }
    }

    /// Returns a copy, with the later ones of these handles.
    pub(super) fn with(&self, now: &MadeHandles) -> Result<MadeHandles, NoMemory> {
        self.handles.with_sites(&now.sites[self.alive.len()..])
    }
}

#[cfg(test)]
mod tests {
    use super::super::call_site;
    use super::*;

    #[test]
    fn a_handle_is_known_by_how_many_were_created_before() {
        let mut handles = MadeHandles::default();
        let sites = [call_site(), None, call_site()];
        (0..6).for_each(|number| handles.add(sites[number % 3]));
        let mut past = PastHandles::default();
        past.renumber(&mut handles, &[0, 2, 5]);
        assert_eq!(handles.len(), 3);
        assert_eq!([0, 1, 2, 3, 4].map(|it| handles.nth(it)), [0, 2, 5, 6, 7]);
        assert_eq!(
            [0, 1, 2].map(|it| handles.made_at(it)),
            [sites[0], sites[2], sites[2]]
        );
        handles.add(sites[1]);
        handles.add(sites[0]);
        assert_eq!([0, 1, 2, 3, 4].map(|it| past.number(it)), [0, 2, 5, 6, 7]);
        let whole = past.with(&handles).unwrap();
        assert_eq!((whole.len(), whole.nth(7)), (8, 7));
        assert_eq!((whole.made_at(4), whole.made_at(7)), (sites[1], sites[0]));
        past.renumber(&mut handles, &[2, 4]);
        assert_eq!([0, 1, 2].map(|it| handles.nth(it)), [5, 7, 8]);
        assert_eq!([0, 1].map(|it| handles.made_at(it)), [sites[2], sites[0]]);
    }
}
