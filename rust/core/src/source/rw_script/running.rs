//! The run of a script, on one book.
// From crates/rw_script/src/running.rt, with its contracts as comments. //+
use crate::shim::{SliceExt, Vec}; //+

//~ ghost use Rattle.std.specs.Prelude.{◌≡◌, ◌<◌, ◌≤◌, ◌^◌, ◌++◌, ◌∷◌, [], None, false, if◌then◌else◌, length, IfOk, OnOk, IsTrue, MatchOption};
//~ ghost use Rattle.rw_law.specs.declared.limits.TheConstants.{MOST_ACTORS, MOST_STAMP};
//~ ghost use Rattle.rw_journal.specs.declared.book.TheConstants.{MOST_ENTRIES};
//~ ghost use Rattle.rw_journal.specs.Book.{last_stamp, opening_of, reply_to};
//~ ghost use Rattle.rw_journal.specs.Interleaving.{CountsFrom, interleaving_of, journal_of};
//~ ghost use Rattle.rw_world.specs.Machines.{of_world};
//~ ghost use Rattle.rw_world.specs.Openings.{opening_row, refusal};
//~ ghost use Rattle.rw_script.specs.Running.{IsMade, PlaysFrom, call_of, with_made_handle, made_by, run_of};

use crate::source::rw_script::script::Script;
use crate::source::rw_script::steps::ScriptStep;
use crate::source::rw_journal::laws::journal_of_an_interleaving;
use crate::source::rw_journal::{Book, Run, TakeFault};
use crate::source::rw_law::{NoMemory, Reversible};
use crate::source::rw_world::{ChanCall, ChanReply, OpenFault, RowCall, Spec, World, documented, open, specified};
use crate::shim::alloc::Global;

/// The number for a name whose line made no handle. No handle ever has it.
pub(crate) const NEVER_MADE: u32 = u32::MAX;

/// Returns the step's call, with the handle that its name stands for.
pub(crate) fn filled(step: &ScriptStep, made: &[u32]) -> ChanCall<u64>
//~     ensures { result ≡ with_made_handle step.now.call step.now.target made.now }
{
    match step.target {
        None => step.call,
        Some(name) => match made.get(name as usize) {
            Some(handle) => step.call.with_handle(*handle),
            None => step.call.with_handle(NEVER_MADE),
        },
    }
}

/// Returns the handle that a call made, by its reply, or `NEVER_MADE`.
pub(crate) fn made_by(reply: &ChanReply<u64>) -> u32
//~     ensures { result ≡ made_by reply.now }
{
    reply.new_handle().unwrap_or(NEVER_MADE)
}

/// Makes the call of a step, and returns the handle that it made, or `NEVER_MADE`. A call that would wait isn't made: the
/// result is `None`.
fn run_step<M: Reversible<Call = RowCall<ChanCall<u64>>, Reply = ChanReply<u64>>>(
    book: &mut Book<M>,
    step: &ScriptStep,
    made: &[u32],
) -> Result<Option<u32>, NoMemory>
//~     requires few { length book.old.entries < MOST_ENTRIES }
//~     requires stamps { last_stamp book.old.entries < MOST_STAMP }
//~     requires actor { step.now.actor < MOST_ACTORS }
//~     requires no_stray { M.is_straying (reply_to M.Reversible book.old (call_of step.now made.now).1) ≡ false }
//~     ensures { let c = call_of step.now made.now in IfOk result (λ o. MatchOption o
//~         (IsTrue (M.is_waiting (reply_to M.Reversible book.old c.1))
//~         × (book.new.entries ≡ book.old.entries)
//~         × (book.new.opening ≡ book.old.opening))
//~         (IsMade M.Reversible book.old book.new c)) }
{
    let call = RowCall {
        channel: step.channel,
        call: filled(step, made),
    };
    match book.take(step.actor, 0, call) {
        Ok(receipt) => Ok(Some(made_by(&receipt.reply))),
        Err(TakeFault::Waits) => Ok(None),
        Err(TakeFault::NoMemory) => Err(NoMemory),
        Err(TakeFault::JournalFull | TakeFault::NoChannel) => unreachable!(),
    }
}

/// Stores the handle that a name stands for, if the step binds one.
pub(crate) fn push_handle(made: &mut Vec<u32>, binds: bool, handle: u32) -> Result<(), NoMemory>
//~     ensures { OnOk result (made.new.items ≡ (if binds then made.old.items ++ handle ∷ [] else made.old.items)) }
{
    if binds {
        made.push(handle)?;
    }
    Ok(())
}

/// Makes the calls of a script in order, up to the first that would wait, and returns the number of that line.
fn run_steps<M: Reversible<Call = RowCall<ChanCall<u64>>, Reply = ChanReply<u64>>>(
    alloc: Global,
    book: &mut Book<M>,
    script: &Script,
) -> Result<Option<u64>, NoMemory>
//~     requires plays { PlaysFrom M.Reversible script.now.specs (opening_of M.Reversible book.old) }
//~     requires fresh { book.old.entries ≡ [] }
//~     ensures opened { OnOk result (opening_of M.Reversible book.new ≡ opening_of M.Reversible book.old) }
//~     ensures calls { OnOk result (interleaving_of book.new.entries ≡ (run_of script.now).calls) }
//~     ensures stamps { OnOk result (CountsFrom 0 book.new.entries) }
//~     ensures waits { IfOk result (λ waits. waits ≡ (run_of script.now).waits) }
{
    let mut made = Vec::new(alloc);
    'each_step: for step in script.steps() {
        let Some(handle) = run_step(book, step, &made)? else {
            return Ok(Some(step.line));
        };
        push_handle(&mut made, step.binds, handle)?;
    }
    Ok(None)
}

/// Returns a book with the calls of a script before the first that would wait, and the number of that line.
fn run_book<M: Reversible<Call = RowCall<ChanCall<u64>>, Reply = ChanReply<u64>> /*~+ Drop~*/>(
    alloc: Global,
    start: M,
    script: &Script,
) -> Result<(Book<M>, Option<u64>), NoMemory>
//~     requires plays { PlaysFrom M.Reversible script.now.specs (M.shown start) }
//~     requires light { M.weigh (M.shown start) ≤ 2 ^ 32 }
//~     ensures opened { IfOk result (λ ran. opening_of M.Reversible ran.0 ≡ M.shown start) }
//~     ensures entries { IfOk result (λ ran. ran.0.entries ≡ journal_of M.Reversible (M.shown start) 0 (run_of script.now).calls) }
//~     ensures waits { IfOk result (λ ran. ran.1 ≡ (run_of script.now).waits) }
{
    let mut book = Book::open(alloc, start)?;
    let waits = run_steps(alloc, &mut book, script)?;
    book.book_law();
    journal_of_an_interleaving::<M>();
    Ok((book, waits))
}

/// A script that was run: the specs of its channels, the book with its calls, and the line of the call that would wait, if one
/// would.
//~ #[derive(Drop)]
pub struct Played {
    pub specs: Vec<Spec<u64>>,
    pub book: Book<World<u64>>,
    pub waits: Option<u64>,
}

/// Runs a script on a book: its calls in the order of its lines, with the stamps 1, 2, 3, .. . It stops at the first call that
/// would wait, and returns the number of that line.
pub fn play(alloc: Global, script: &Script) -> Result<Played, NoMemory>
//~     ensures specs { IfOk result (λ played. played.specs.items ≡ script.now.specs) }
//~     ensures opens { IfOk result (λ played. refusal played.specs.items ≡ None) }
//~     ensures opened { IfOk result (λ played. opening_of of_world played.book ≡ opening_row played.specs.items) }
//~     ensures entries { IfOk result (λ played. played.book.entries ≡ journal_of of_world (opening_row script.now.specs) 0 (run_of script.now).calls) }
//~     ensures waits { IfOk result (λ played. played.waits ≡ (run_of script.now).waits) }
{
    specified::<u64>();
    documented::<u64>();
    let specs = script.specs()./*~to_vec~*//*+*/try_to_vec/*+*/(alloc)?;
    let world = match open(alloc, script.specs()) {
        Ok(world) => world,
        Err(OpenFault::NoMemory) => return Err(NoMemory),
        Err(_) => unreachable!(),
    };
    let (book, waits) = run_book(alloc, world, script)?;
    Ok(Played { specs, book, waits })
}

/// Like `play`, but returns a run instead of a book.
pub fn run_one(alloc: Global, script: &Script) -> Result<(Run<u64>, Option<u64>), NoMemory>
//~     ensures specs { IfOk result (λ ran. ran.0.specs ≡ script.now.specs) }
//~     ensures entries { IfOk result (λ ran. ran.0.entries ≡ journal_of of_world (opening_row script.now.specs) 0 (run_of script.now).calls) }
//~     ensures waits { IfOk result (λ ran. ran.1 ≡ (run_of script.now).waits) }
{
    let Played { specs, book, waits } = play(alloc, script)?;
    Ok((Run::of_book(specs, book), waits))
}
