//! Which versions of a watch a receiver has seen, in one of two ways: by its marks, or by its looks.
// From crates/rw_findings/src/totals/sight.rt, with its contracts as comments. //+

//~ ghost use Rattle.std.specs.Prelude.{◌≡◌};
//~ ghost use Rattle.rw_findings.specs.WatchTallies.{after_sight, ended_sight, HasRoomUpTo, new_sight, unseen_at};

/// What is counted of one way. What came after the newest version that was seen isn't among the unseen yet.
#[derive(Clone, Copy)]
pub(super) struct Sight {
    // The newest version that was seen, and at first the version at which the receiver was made.
    newest: u64,
    unseen: u64,
}

impl Sight {
    /// Returns one that begins at this version.
    pub(super) fn new(version: u64) -> Sight
//~         ensures { result ≡ new_sight version }
    {
        Sight {
            newest: version,
            unseen: 0,
        }
    }

    /// Returns it after the value of this version was seen.
    pub(super) fn after(self, version: u64) -> Sight
//~         requires { HasRoomUpTo version self }
//~         ensures { result ≡ after_sight version self }
    {
        let mut after = self;
        if self.newest < version {
            after.newest = version;
            after.unseen += version - self.newest - 1;
        }
        after
    }

    /// Returns how many changes weren't seen at this version: of a receiver that is alive with all that came after the newest that it
    /// has seen.
    pub(super) fn unseen_at(self, alive: bool, version: u64) -> u64
//~         requires { HasRoomUpTo version self }
//~         ensures { result ≡ unseen_at alive version self }
    {
        if alive {
            self.unseen + (version - self.newest)
        } else {
            self.unseen
        }
    }

    /// Returns it after its receiver was dropped at this version.
    pub(super) fn ended(self, alive: bool, version: u64) -> Sight
//~         requires { HasRoomUpTo version self }
//~         ensures { result ≡ ended_sight alive version self }
    {
        let mut ended = self;
        ended.unseen = self.unseen_at(alive, version);
        ended
    }
}
