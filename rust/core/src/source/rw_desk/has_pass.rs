//! What a desk closes over: an actor's number and its receipts.
// From crates/rw_desk/src/has_pass.rt, with its contracts as comments. //+

//~ ghost use Rattle.std.specs.Prelude.{◌≡◌, ◌<◌};
//~ ghost use Rattle.rw_law.specs.declared.limits.TheConstants.{MOST_ACTORS};
//~ ghost use Rattle.rw_desk.specs.Passes.{Pass as Passes};

use crate::source::rw_desk::kept::Kept;
use crate::source::rw_desk::pass::Pass;

/// A pass, or what has one, as a seat of `rw_seat`. Desks of both kinds close over this.
pub trait HasPass<V: Copy> {
//~     /// The pass.
//~     ghost pass_of: { Self → Passes V };

    /// Returns the number of the pass's actor.
    fn actor(&self) -> u32
//~         ensures actor { result ≡ (pass_of self.now).actor }
        /*~ensures known { result < MOST_ACTORS }~*/;

    /// Returns the receipts of the pass, in order.
    fn kept(&self) -> &[Kept<V>]
        /*~ensures { result.now ≡ (pass_of self.now).kept }~*/;
}

impl<V: Copy> HasPass<V> for Pass<V> {
//~     ghost pass_of = { λ pass. pass };

    fn actor(&self) -> u32 {
        Pass::actor(self)
    }

    fn kept(&self) -> &[Kept<V>] {
        Pass::kept(self)
    }
}
