//! The count of live handles, by kind.
// From crates/rw_handles/src/tally.rt, with its contracts as comments. //+
//~ ghost use Rattle.std.specs.Prelude.{◌≡◌, ◌<◌};
//~ ghost use Rattle.rw_handles.specs.declared.table.TheConstants.{MOST_HANDLES};
//~ ghost use Rattle.rw_handles.specs.Tally.{tally_of, IsOneMore};

use crate::source::rw_handles::kinds::Kind;

/// How many live handles there are of each kind.
#[derive(Clone, Copy)]
pub struct Tally {
    pub senders: u64,
    pub receivers: u64,
    pub weak: u64,
}

impl Tally {
    #[inline(always)] //+
    pub fn of(&self, kind: Kind) -> u64
//~         ensures { result ≡ tally_of self.now kind }
    {
        match kind {
            Kind::Sender => self.senders,
            Kind::Receiver => self.receivers,
            Kind::Weak => self.weak,
        }
    }

    #[inline(always)] //+
    pub fn add(&mut self, kind: Kind)
//~         requires { tally_of self.old kind < MOST_HANDLES }
//~         ensures { IsOneMore kind self.old self.new }
    {
        match kind {
            Kind::Sender => self.senders += 1,
            Kind::Receiver => self.receivers += 1,
            Kind::Weak => self.weak += 1,
        }
    }

    #[inline(always)] //+
    pub fn remove(&mut self, kind: Kind)
//~         requires { 0 < tally_of self.old kind }
//~         ensures { IsOneMore kind self.new self.old }
    {
        match kind {
            Kind::Sender => self.senders -= 1,
            Kind::Receiver => self.receivers -= 1,
            Kind::Weak => self.weak -= 1,
        }
    }
}
