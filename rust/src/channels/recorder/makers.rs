//! Who has made channels, and how many.

use crate::channels::actors::LastName;
use std::sync::Arc;
use yovanelum_record::by_text::{TextMap, TextSet};

/// How many makers there are before those are forgotten whose channels have left the run.
const MANY: usize = 256;

/// A maker that has made one of the last channels isn't forgotten: that channel may be about to
/// enter the run.
const RECENT: u64 = 128;

/// How many channels each caller has made, by the name of the caller.
#[derive(Default)]
pub(super) struct Makers {
    made: u64,
    last: LastName,
    counts: TextMap<Count>,
    // That of callers without a name.
    nameless: Option<Count>,
}

struct Count {
    count: u64,
    // How many channels all had made when this one made its last.
    last: u64,
}

impl Makers {
    /// Returns the name of the current caller, if it has one.
    pub(super) fn name_of_caller(&mut self) -> Option<Arc<str>> {
        self.last.of_caller()
    }

    /// Counts a channel that this caller makes, and returns how many it has made before.
    pub(super) fn count(&mut self, name: Option<&str>) -> u64 {
        self.made += 1;
        let last = self.made;
        let known = match name {
            Some(name) => self.counts.get_mut(name),
            None => self.nameless.as_mut(),
        };
        if let Some(maker) = known {
            maker.last = last;
            maker.count += 1;
            return maker.count - 1;
        }
        let first = Count { count: 1, last };
        match name {
            Some(name) => drop(self.counts.insert(name, first)),
            None => self.nameless = Some(first),
        }
        0
    }

    /// Whether any channel was made.
    pub(super) fn have_made(&self) -> bool {
        self.made > 0
    }

    /// Whether there are so many makers that most of them have no channel in the run.
    pub(super) fn are_many(&self) -> bool {
        self.counts.len() >= MANY
    }

    /// Forgets the makers whose names are not among these, which have channels in the run.
    pub(super) fn forget_others(&mut self, in_run: &TextSet) {
        let recent = self.made.saturating_sub(RECENT);
        self.counts
            .retain(|name, maker| maker.last > recent || in_run.contains(name));
    }
}

#[cfg(test)]
mod tests {
    use super::*;

    /// How many requests are made for each one hundred: 200, or as many as the variable says.
    fn runs() -> u64 {
        let wanted = std::env::var("YOVANELUM_RUNS");
        wanted.map_or(if cfg!(miri) { 20 } else { 200 }, |it| it.parse().unwrap())
    }

    #[test]
    fn a_maker_with_a_channel_in_the_run_goes_on_counting_and_others_are_forgotten() {
        let mut makers = Makers::default();
        let (stays, mut in_run) = (Some("stays"), TextSet::new());
        in_run.insert("stays");
        assert_eq!((makers.count(stays), makers.count(stays)), (0, 1));
        for request in 0..100 * runs() {
            assert_eq!(makers.count(Some(&format!("request {request}"))), 0);
            if makers.are_many() {
                makers.forget_others(&in_run);
            }
            assert!(makers.counts.len() <= MANY);
        }
        assert_eq!(makers.count(stays), 2);
    }
}
