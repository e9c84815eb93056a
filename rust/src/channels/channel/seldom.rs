//! What most channels never have.

use super::ChannelState;
use crate::channels::wait::DroppedWait;
use std::collections::VecDeque;
use yovanelum_record::numbered::NumberMap;

/// What is known of a channel if there is anything to say: names and texts that a test gives, and
/// calls that waited.
pub(crate) struct Seldom {
    pub(crate) name: Option<String>,
    // The names of senders and receivers by their numbers: of those that the journal names, and of
    // the others that are alive.
    pub(crate) handle_names: NumberMap<u64, String>,
    // The texts of values by their numbers.
    pub(crate) texts: NumberMap<u64, String>,
    // The entries of calls that wait and whose words don't say so: how many entries are before
    // each.
    pub(crate) waited: Vec<u64>,
    // The drops that were made by the drop of a named future, in the same way.
    pub(crate) cancelled: Vec<u64>,
    // The last calls that waited and were dropped.
    pub(crate) dropped_waits: VecDeque<DroppedWait>,
}

impl Seldom {
    const NONE: Seldom = Seldom {
        name: None,
        handle_names: NumberMap::new(),
        texts: NumberMap::new(),
        waited: Vec::new(),
        cancelled: Vec::new(),
        dropped_waits: VecDeque::new(),
    };

    /// Forgets what is known of all calls, since the last ones are kept alone.
    pub(super) fn forget_calls(&mut self) {
        self.texts = NumberMap::new();
        self.waited = Vec::new();
        self.cancelled = Vec::new();
    }
}

impl ChannelState {
    /// Returns what most channels don't have.
    pub(crate) fn seldom(&self) -> &Seldom {
        static NONE: Seldom = Seldom::NONE;
        self.seldom.as_deref().unwrap_or(&NONE)
    }

    /// The same, to be changed.
    pub(crate) fn seldom_mut(&mut self) -> &mut Seldom {
        self.seldom.get_or_insert_with(|| Box::new(Seldom::NONE))
    }
}
