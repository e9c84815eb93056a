//! Scripts that are played by a thread for each actor.
// From crates/rw_script/src/threads.rt, with its contracts as comments. //+
use crate::shim::Vec; //+

//~ ghost use Rattle.std.specs.Prelude.{◌≡◌, ◌<◌, All, IfOk, IsTrue};
//~ ghost use Rattle.rw_desk.specs.Closing.{Agree, AreAllHere};
//~ ghost use Rattle.rw_script.specs.Threads.{IsRunOf};

use crate::source::rw_script::following::follow_all;
use crate::source::rw_script::gate::Gate;
use crate::source::rw_script::running::{NEVER_MADE, filled, made_by, push_handle};
use crate::source::rw_script::script::Script;
use crate::source::rw_script::start_latch::StartLatch;
use crate::source::rw_script::steps::ScriptStep;
use crate::source::rw_desk::{CloseFault, Desk, DeskFault, Pass};
use crate::source::rw_journal::Run;
use crate::source::rw_law::{Entry, NoMemory};
use crate::source::rw_world::{ChanCall, ChanReply, World};
use crate::shim::alloc::Global;
use crate::shim::sync::Wait;
use crate::shim::thread;
use crate::shim::thread::{JoinHandle, Threads};
//~ use thiserror::Error;

/// Why the threads of a script return no run. If several apply, the first in this order is reported.
#[derive(Clone, Copy, Debug, PartialEq, Eq/*~, Error~*/)]
pub enum RunFault {
    /// An allocation failed.
//~     #[error("no memory")]
    NoMemory,
    /// Not all threads could be started, and no call was made.
//~     #[error("no thread")]
    NoThread,
    /// A call of a desk failed, though no allocation did, or the desk's journals and receipts aren't a run of the script.
//~     #[error("strayed")]
    Strayed,
}

impl From<NoMemory> for RunFault {
//~     ghost use Rattle.std.specs.Prelude.{◌≡◌};
//~     ghost use Rattle.rw_script.specs.declared.threads.RunFault.TheVariants as run;

//~     ghost from_gives = { λ memory fault. fault ≡ run.NoMemory };

    fn from(_: NoMemory) -> RunFault {
        RunFault::NoMemory
    }
}

/// What an actor's calls are made on. Threads share it as a type parameter, so that their proof needn't look into a desk.
trait Calls {
    /// Makes one call, and waits if it has to.
    fn make<R: Wait>(
        &self,
        rt: &R,
        pass: &mut Pass<u64>,
        channel: u32,
        call: ChanCall<u64>,
    ) -> Result<ChanReply<u64>, DeskFault>;
}

/// A desk that the threads of a script share. It is a separate type so that it is proved only once that threads may share it.
//~ #[derive(Drop)]
struct Shared {
    desk: Desk<u64>,
}

impl Calls for Shared {
    fn make<R: Wait>(
        &self,
        rt: &R,
        pass: &mut Pass<u64>,
        channel: u32,
        call: ChanCall<u64>,
    ) -> Result<ChanReply<u64>, DeskFault> {
        self.desk.wait_call(rt, pass, channel, call)
    }
}

/// Makes the call of a step, between the two calls of the gate, and returns the handle that it made. `made` has the handles of
/// the names so far.
fn make_call<D: Calls, G: Gate, R: Wait>(
    rt: &R,
    desk: &D,
    gate: &G,
    pass: &mut Pass<u64>,
    step: &ScriptStep,
    made: &[u32],
) -> Result<u32, RunFault> {
    let call = filled(step, made);
    let i = pass.kept().len() as u64;
    gate.before(step.actor, i);
    let answer = desk.make(rt, pass, step.channel, call);
    gate.after(step.actor, i);
    match answer {
        Ok(reply) => Ok(made_by(&reply)),
        Err(DeskFault::NoMemory) => Err(RunFault::NoMemory),
        Err(_) => Err(RunFault::Strayed),
    }
}

/// Makes the calls of an actor's lines in order, up to the first that fails. `made` is empty at first, and the handles of the
/// names are added to it.
fn make_calls<D: Calls, G: Gate, R: Wait>(
    rt: &R,
    desk: &D,
    gate: &G,
    steps: &[ScriptStep],
    pass: &mut Pass<u64>,
    made: &mut Vec<u32>,
) -> Result<(), RunFault> {
    for step in steps {
        let handle = if step.actor == pass.actor() {
            make_call(rt, desk, gate, pass, step, made)?
        } else {
            NEVER_MADE
        };
        push_handle(made, step.binds, handle)?;
    }
    Ok(())
}

/// Waits for the signal, and makes an actor's calls if it is to go. Returns the pass, with the fault if there was one.
fn play_actor<D: Calls, G: Gate, R: Wait>(
    rt: &R,
    latch: &StartLatch,
    desk: &D,
    gate: &G,
    steps: &[ScriptStep],
    mut pass: Pass<u64>,
    mut made: Vec<u32>,
) -> (Pass<u64>, Result<(), RunFault>) {
    if !latch.wait(rt) {
        return (pass, Ok(()));
    }
    let played = make_calls(rt, desk, gate, steps, &mut pass, &mut made);
    (pass, played)
}

/// Returns the fault that is first in the order of faults, if there is one.
fn first_fault(one: Result<(), RunFault>, other: Result<(), RunFault>) -> Result<(), RunFault> {
    match one {
        Ok(()) | Err(RunFault::Strayed) if other.is_err() => other,
        _ => one,
    }
}

/// Stores a thread, for which there is room, and returns whether it was started.
fn push_started<T/*~: Drop~*/, E/*~: Drop~*/>(threads: &mut Vec<T>, thread: Result<T, E>) -> bool {
    match thread {
        Ok(thread) => threads.push(thread).is_ok(),
        Err(_) => false,
    }
}

/// Joins the threads. Their passes are added to `back`, which has room for them.
fn join_all<P/*~: Drop~*/, R: Threads>(
    rt: &R,
    threads: Vec<JoinHandle<(P, Result<(), RunFault>)>>,
    back: &mut Vec<P>,
) -> Result<(), RunFault> {
    let mut played = Ok(());
    for thread in threads {
        let (pass, fault) = thread.join(rt);
        played = first_fault(played, fault);
        let _ = back.push(pass);
    }
    played
}

/// Plays each actor's lines in its own thread, and returns the passes. No call is made unless all threads were started.
fn play_all<D: Calls + Sync, G: Gate + Sync, R: Threads + Wait + Sync>(
    rt: &R,
    alloc: Global,
    desk: &D,
    gate: &G,
    steps: &[ScriptStep],
    passes: Vec<Pass<u64>>,
) -> Result<Vec<Pass<u64>>, RunFault> {
    let mut back = Vec::with_capacity(alloc, passes.len()).map_err(|_| RunFault::NoMemory)?;
    let mut threads = Vec::with_capacity(alloc, passes.len()).map_err(|_| RunFault::NoMemory)?;
    let latch = StartLatch::new();
    let signal = &latch;
    // This remains the result unless all threads are started.
    let mut played = Err(RunFault::NoThread);
    thread::scope(thread::scope_env(), rt, |scope| {
        let mut started = true;
        for pass in passes {
            let made = Vec::new(alloc);
            let thread = scope.spawn(move || play_actor(rt, signal, desk, gate, steps, pass, made));
            started &= push_started(&mut threads, thread);
        }
        signal.tell(rt, started);
        let joined = join_all(rt, threads, &mut back);
        if started {
            played = joined;
        }
    });
    played?;
    Ok(back)
}

/// Closes the desk, and returns its run.
fn close(alloc: Global, desk: Desk<u64>, passes: Vec<Pass<u64>>) -> Result<Run<u64>, RunFault>
//~     ensures here { IfOk result (λ run. AreAllHere desk.actors passes.items) }
//~     ensures specs { IfOk result (λ run. run.specs ≡ desk.specs) }
//~     ensures agree { IfOk result (λ run. Agree passes.items run.entries) }
{
    match desk.close(alloc, passes) {
        Ok(run) => Ok(run),
        Err((fault, desk, passes)) => {
            drop(desk);
            drop(passes);
            match fault {
                CloseFault::NoMemory => Err(RunFault::NoMemory),
                _ => Err(RunFault::Strayed),
            }
        }
    }
}

/// Whether each entry's actor is below this number.
fn are_of(entries: &[Entry<World<u64>>], actors: u32) -> bool
//~     ensures { IsTrue result → All (λ e. e.actor < actors) entries.now }
{
    for entry in entries {
        if entry.actor >= actors {
            return false;
        }
    }
    true
}

/// Returns the run of the desk, if each actor's calls are those of its lines.
fn played(
    alloc: Global,
    script: &Script,
    desk: Desk<u64>,
    passes: Vec<Pass<u64>>,
) -> Result<Run<u64>, RunFault>
//~     requires specs { desk.specs ≡ script.now.specs }
//~     requires actors { desk.actors ≡ script.now.actors }
//~     ensures { IfOk result (IsRunOf script.now) }
{
    follow_all(alloc, script.steps(), &passes)?;
    let run = close(alloc, desk, passes)?;
    if !are_of(run.entries(), script.actors()) {
        return Err(RunFault::Strayed);
    }
    Ok(run)
}

/// Plays a script: each actor's lines in its own thread, which waits where a call would wait, and stops at its first error. The
/// gate is notified of each call.
///
/// On success, each actor's calls are those of all its lines, in order. Names stand for the handles that the actor's own lines
/// made. No call is made unless all threads were started. It may wait forever, such as where a call waits for one that no line
/// makes.
pub fn run_threads<G: Gate + Sync, R: Threads + Wait + Sync>(
    rt: &R,
    alloc: Global,
    script: &Script,
    gate: &G,
) -> Result<Run<u64>, RunFault>
//~     ensures { IfOk result (IsRunOf script.now) }
{
    // A script's specs open and its actors are 1 to 64, so only an allocation can fail.
    let Ok((desk, passes, ends)) = Desk::open(alloc, script.specs(), script.actors()) else {
        return Err(RunFault::NoMemory);
    };
    drop(ends);
    let shared = Shared { desk };
    let passes = play_all(rt, alloc, &shared, gate, script.steps(), passes)?;
    played(alloc, script, shared.desk, passes)
}
impl core::fmt::Display for RunFault { //+
    fn fmt(&self, f: &mut core::fmt::Formatter<'_>) -> core::fmt::Result { //+
        match self { //+
            RunFault::NoMemory => write!(f, "no memory"), //+
            RunFault::NoThread => write!(f, "no thread"), //+
            RunFault::Strayed => write!(f, "strayed"), //+
        } //+
    } //+
} //+
impl core::error::Error for RunFault {} //+
