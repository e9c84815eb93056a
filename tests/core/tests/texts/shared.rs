//! What the tests of books, runs, walks and texts share.

use proved::Global;
use proved::rw_journal::{Book, PushFault, Run, RunDraft, TakeFault};
use proved::rw_law::{Payload, Reversible};
use proved::rw_navigator::{HitIndex, Move, Navigator, OutOfRange, Probe};
use proved::rw_text::{WriteFault, write};
use proved::rw_world::{ChanCall, ChanReply, OpenFault, RowCall, Spec, World, open};
use support::devices::FailingWriter;

/// Opens a book of a world with these specs.
pub fn book_of<V: Copy>(specs: &[Spec<V>]) -> Result<Book<World<V>>, OpenFault> {
    Ok(Book::open(Global, open(Global, specs)?)?)
}

/// Makes a call by actor 0. Returns the stamp of its receipt, and its reply.
pub fn take<M: Reversible>(
    book: &mut Book<M>,
    clock: u64,
    call: M::Call,
) -> Result<(u64, M::Reply), TakeFault> {
    let receipt = book.take(0, clock, call)?;
    Ok((receipt.stamp, receipt.reply))
}

/// Undoes the last call. Returns the stamp of its entry, and how many entries are left.
pub fn rewind<M: Reversible>(book: &mut Book<M>) -> Option<(u64, u64)> {
    let entry = book.rewind()?;
    Some((entry.stamp, book.len()))
}

/// Pushes a step.
pub fn push<V: Payload>(
    draft: &mut RunDraft<V>,
    actor: u32,
    stamp: u64,
    channel: u32,
    call: ChanCall<V>,
    reply: ChanReply<V>,
) -> Result<(), PushFault> {
    draft.push(actor, stamp, RowCall { channel, call }, reply)
}

/// Returns how many channels and how many entries a run has.
pub fn counts_of<V: Copy>(run: &Run<V>) -> (usize, usize) {
    (run.specs().len(), run.entries().len())
}

/// Returns the actor and the stamp of a run's entry.
pub fn step_of<V: Copy>(run: &Run<V>, i: usize) -> Option<(u32, u64)> {
    let entry = run.entries().get(i)?;
    Some((entry.actor, entry.stamp))
}

/// Opens a navigator of a run, at place 0.
pub fn navigator_of<V: Copy>(run: &Run<V>) -> Navigator<World<V>> {
    Navigator::open(Global, run.start(Global).unwrap(), run.entries()).unwrap()
}

/// Makes a move, and returns the navigator's place after it.
pub fn step<R: Reversible>(navigator: &mut Navigator<R>, to: Move) -> Result<u64, OutOfRange> {
    navigator.step(to)?;
    Ok(navigator.place())
}

/// Returns a navigator's place, and how many calls its machine had.
pub fn place_and_turns<R: Reversible>(navigator: &Navigator<R>) -> (u64, u64) {
    (navigator.place(), navigator.turns())
}

/// Builds the index of a condition on entries. A condition on states has none.
pub fn index_of<R: Reversible, P: Probe<R>>(
    navigator: &Navigator<R>,
    probe: &P,
) -> Option<HitIndex<R, P>> {
    if !probe.on_step() {
        return None;
    }
    Some(HitIndex::build(Global, navigator, probe).unwrap())
}

/// Returns what an index finds below a place, and above it.
pub fn looked_up<R: Reversible, P: Probe<R>>(
    index: &HitIndex<R, P>,
    place: u64,
) -> (Option<u64>, Option<u64>) {
    (index.before(place), index.after(place))
}

/// Returns what the searches from a place find below it, and above it.
pub fn searched<R: Reversible, P: Probe<R>>(
    navigator: &mut Navigator<R>,
    probe: &P,
    place: u64,
) -> Result<(Option<u64>, Option<u64>), OutOfRange> {
    navigator.step(Move::Goto(place))?;
    let below = navigator.back_to(probe);
    navigator.step(Move::Goto(place))?;
    Ok((below, navigator.forward_to(probe)))
}

/// Writes a run to a writer that accepts at most `most` bytes at a call, and fails once, after `calls` calls. Returns the result
/// of the write, and what was written.
pub fn written<V: Payload>(
    run: &Run<V>,
    most: usize,
    calls: Option<u64>,
) -> (Result<u64, WriteFault>, Vec<u8>) {
    let mut writer = FailingWriter::new(most, calls);
    let answer = write(run, &mut writer);
    (answer, writer.written().to_vec())
}
