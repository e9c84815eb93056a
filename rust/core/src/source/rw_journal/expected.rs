//! A step of a machine, made only where its reply is the expected one.
// From crates/rw_journal/src/expected.rt, with its contracts as comments. //+

//~ ghost use Rattle.std.specs.Prelude.{◌≡◌, ◌<◌, IfSome, IfNone, is_some};
//~ ghost use Rattle.rw_journal.specs.Expected.{IsMade, is_answer};

use crate::source::rw_journal::same::Same;
use crate::source::rw_law::Reversible;

/// Makes the step of a call, if its reply is this one, and neither waits nor strays. Otherwise nothing has changed.
pub fn step_as<M: Reversible>(machine: &mut M, call: &M::Call, reply: &M::Reply) -> Option<M::Patch>
where
    M::Reply: Same,
//~     requires room { M.weigh (M.shown machine.old) < M.reserved machine.old }
//~     requires allowed { M.allowed (M.shown machine.old) }
//~     ensures exact { is_some result ≡ is_answer M.Reversible M.Reply.same (M.shown machine.old) call.now reply.now }
//~     ensures made { IfSome result (λ patch. IsMade M.Reversible (M.shown machine.old) (M.shown machine.new) call.now reply.now patch) }
//~     ensures undone { IfNone result (M.shown machine.new ≡ M.shown machine.old) }
//~     ensures room { M.reserved machine.new ≡ M.reserved machine.old }
{
    let (answer, patch) = machine.apply(call);
    if M::waits(&answer) || M::strays(&answer) || !answer.is_same(reply) {
        machine.undo(call, &patch);
        return None;
    }
    Some(patch)
}
