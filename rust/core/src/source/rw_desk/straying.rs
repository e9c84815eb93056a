//! Comparing the receipts of all passes with a run, in one walk over its entries.
// From crates/rw_desk/src/straying.rt, with its contracts as comments. //+

//~ ghost use Rattle.std.specs.Prelude.{◌≡◌, ◌↔◌, ◌+◌, ◌<◌, ◌≤◌, Some, ℕ, get_or, length, map, replicate, set, slice_get, IfNone, IfSome, IsTrue, MatchBool};
//~ ghost use Rattle.rw_law.specs.declared.limits.TheConstants.{MOST_ACTORS};
//~ ghost use Rattle.rw_desk.specs.Closing.{IsStray, receipts_of};
//~ ghost use Rattle.rw_desk.specs.Settling.{receipt_of};
//~ ghost use Rattle.rw_desk.specs.Straying.{AreAllTheirs, AreAt, StraysAt};

use crate::source::rw_desk::has_pass::HasPass;
use crate::source::rw_desk::kept::Kept;
use crate::source::rw_desk::settling::is_next;
use crate::source::rw_journal::Run;
use crate::source::rw_law::{Entry, MOST_ACTORS, Payload};
use crate::source::rw_world::World;

/// The least actor that was found to stray, and the number of the receipt at which it first does. The actor is `MOST_ACTORS` if
/// none was found.
#[derive(Clone, Copy)]
struct FirstStray {
    actor: u32,
    number: usize,
}

/// Returns the receipts of an actor's first pass, or none if it has no pass.
fn receipts_of<V: Copy, P: HasPass<V>>(passes: &[P], actor: u32) -> &[Kept<V>]
//~     ensures { result.now ≡ receipts_of actor (map P.pass_of passes.now) }
{
    for pass in passes {
        if pass.actor() == actor {
            return pass.kept();
        }
    }
    &[]
}

/// Advances the number of the next receipt of the entry's actor, if that receipt is the entry's. Returns whether it is.
fn follow<V: Payload, P: HasPass<V>>(
    passes: &[P],
    numbers: &mut [usize],
    entry: &Entry<World<V>>,
) -> bool
//~     requires { entry.now.actor < length numbers.old }
//~     ensures same { IsTrue result
//~         ↔ (slice_get (receipts_of entry.now.actor (map P.pass_of passes.now)) (get_or numbers.old entry.now.actor 0)
//~         ≡ Some (receipt_of entry.now)) }
//~     ensures numbers { MatchBool result (numbers.new ≡ set numbers.old entry.now.actor (get_or numbers.old entry.now.actor 0 + 1)) (numbers.new ≡ numbers.old) }
{
    let actor = entry.actor as usize;
    let number = numbers[actor];
    if !is_next(receipts_of(passes, entry.actor), number, entry) {
        return false;
    }
    numbers[actor] = number + 1;
    true
}

/// Follows the receipts of all actors. Once an actor strays, neither it nor any greater one is followed further.
fn follow_all<V: Payload, P: HasPass<V>>(
    passes: &[P],
    entries: &[Entry<World<V>>],
    numbers: &mut [usize],
) -> FirstStray
//~     requires numbers { numbers.old ≡ replicate MOST_ACTORS 0 }
//~     ensures numbers { length numbers.new ≡ MOST_ACTORS }
//~     ensures few { result.actor ≤ MOST_ACTORS }
//~     ensures at { AreAt (map P.pass_of passes.now) entries.now numbers.new result.actor }
//~     ensures strays { StraysAt (map P.pass_of passes.now) entries.now result }
{
    let mut nearest = FirstStray {
        actor: MOST_ACTORS,
        number: 0,
    };
    for entry in entries {
        if entry.actor < nearest.actor && !follow(passes, numbers, entry) {
            nearest = FirstStray {
                actor: entry.actor,
                number: numbers[entry.actor as usize],
            };
        }
    }
    nearest
}

/// Returns the least actor below a bound that has a receipt of its number, and so receipts left.
fn first_left<V: Copy, P: HasPass<V>>(passes: &[P], numbers: &[usize], bound: u32) -> Option<u32>
//~     requires { bound ≤ length numbers.now }
//~     ensures none { IfNone result ((a : ℕ) → a < bound → length (receipts_of a (map P.pass_of passes.now)) ≤ get_or numbers.now a 0) }
//~     ensures some { IfSome result (λ a. (a < bound) × (get_or numbers.now a 0 < length (receipts_of a (map P.pass_of passes.now)))) }
//~     ensures least { IfSome result (λ a. (b : ℕ) → b < a → length (receipts_of b (map P.pass_of passes.now)) ≤ get_or numbers.now b 0) }
{
    for actor in 0..bound {
        if numbers[actor as usize] < receipts_of(passes, actor).len() {
            return Some(actor);
        }
    }
    None
}

/// Returns the least actor whose receipts aren't its entries, and the number of the first at which they differ.
pub(crate) fn strayed<V: Payload, P: HasPass<V>>(
    entries: &[Entry<World<V>>],
    passes: &[P],
) -> Option<(u32, u64)>
//~     ensures none { IfNone result (AreAllTheirs (map P.pass_of passes.now) entries.now) }
//~     ensures some { IfSome result (λ r. IsStray (map P.pass_of passes.now) entries.now r.0 r.1) }
{
    let mut numbers = [0usize; MOST_ACTORS as usize];
    let nearest = follow_all(passes, entries, &mut numbers);
    if let Some(actor) = first_left(passes, &numbers, nearest.actor) {
        return Some((actor, numbers[actor as usize] as u64));
    }
    if nearest.actor < MOST_ACTORS {
        return Some((nearest.actor, nearest.number as u64));
    }
    None
}
