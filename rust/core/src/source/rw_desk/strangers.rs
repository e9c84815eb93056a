//! Which actors have passes.
// From crates/rw_desk/src/strangers.rt, with its contracts as comments. //+

//~ ghost use Rattle.std.specs.Prelude.{◌≡◌, ◌<◌, map, IfNone, IfSome};
//~ ghost use Rattle.rw_law.specs.declared.limits.TheConstants.{MOST_ACTORS};
//~ ghost use Rattle.rw_world.specs.Lists.{Each};
//~ ghost use Rattle.rw_desk.specs.Closing.{AreAllHere, IsStranger, passes_of};

use crate::source::rw_desk::has_pass::HasPass;

/// Returns how many of the passes are an actor's.
fn passes_of<V: Copy, P: HasPass<V>>(passes: &[P], actor: u32) -> usize
//~     ensures { result ≡ passes_of actor (map P.pass_of passes.now) }
{
    let mut count = 0;
    for pass in passes {
        if pass.actor() == actor {
            count += 1;
        }
    }
    count
}

/// Returns the least actor that doesn't have exactly one pass. If each has one, returns the number of a pass that is no actor's.
pub fn stranger<V: Copy, P: HasPass<V>>(passes: &[P], actors: u32) -> Option<u32>
//~     ensures none { IfNone result (AreAllHere actors (map P.pass_of passes.now)) }
//~     ensures some { IfSome result (IsStranger actors (map P.pass_of passes.now)) }
{
    for actor in 0..actors {
        if passes_of(passes, actor) != 1 {
            return Some(actor);
        }
    }
    for pass in passes {
        if pass.actor() >= actors {
            return Some(pass.actor());
        }
    }
    None
}

/// Changes nothing. Its contract gives the caller's proof that each pass is an actor's.
pub(crate) fn known<V: Copy, P: HasPass<V>>(passes: &[P])
//~     ensures { Each (λ pass. pass.actor < MOST_ACTORS) (map P.pass_of passes.now) }
{
    for pass in passes {
        let _ = pass.actor();
    }
}
