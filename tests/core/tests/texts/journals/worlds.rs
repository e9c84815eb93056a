//! Books and runs of worlds.

use super::walks::{ENDS, Showing, Walk, Walked, walked};
use crate::shared::{book_of, rewind, take};
use crate::texts::rows::{OVERRUN, SCRIPTS, run_of};
use proved::Global;
use proved::rw_broadcast::{BCall, BReply};
use proved::rw_journal::{Book, Run, TakeFault};
use proved::rw_law::Reversible;
use proved::rw_navigator::{Move, OutOfRange};
use proved::rw_world::{ChanCall, ChanReply, OpenFault, RowCall, Spec};

/// A channel that retains two values.
const TWO: [Spec<u64>; 1] = [Spec::Broadcast(2)];

/// Returns a call on a broadcast channel.
fn on<V>(channel: u32, call: BCall<V>) -> RowCall<ChanCall<V>> {
    let call = ChanCall::B(call);
    RowCall { channel, call }
}

/// Returns a send of a value on a channel, by actor 0.
fn send(channel: u32, value: u64) -> (u32, RowCall<ChanCall<u64>>) {
    (0, on(channel, BCall::Send(0, value)))
}

/// The stamp of a call's receipt, and its reply.
type Taken<R> = Result<(u64, R), TakeFault>;

/// The results of `answers`.
type Answers<R> = (
    bool,
    [Taken<R>; 2],
    Option<(u64, u64)>,
    Taken<R>,
    Option<(u64, u64)>,
);

/// Makes room in a book at a clock, makes a call there twice, rewinds, makes the call again at clock 0, and rewinds again. Returns
/// the results.
fn answers<M: Reversible>(book: &mut Book<M>, clock: u64, call: M::Call) -> Answers<M::Reply> {
    (
        book.ready(clock).is_ok(),
        [take(book, clock, call), take(book, clock, call)],
        rewind(book),
        take(book, 0, call),
        rewind(book),
    )
}

/// Whether a book records a call `most` times, each time with this reply and the next stamp.
fn is_filled<M: Reversible>(book: &mut Book<M>, call: M::Call, reply: M::Reply, most: u64) -> bool
where
    M::Reply: PartialEq,
{
    let mut all = true;
    for stamp in 1..=most {
        all = take(book, 0, call) == Ok((stamp, reply)) && all;
    }
    all
}

/// What `played` returns.
type Played<R> = (Result<(), (u64, TakeFault)>, bool, Answers<R>);

/// Runs calls on a book, records one more call `most` times, as `is_filled` does, and then makes those of `answers` with it. Returns
/// the results.
fn played<M: Reversible>(
    mut book: Book<M>,
    calls: &[(u32, M::Call)],
    most: u64,
    clock: u64,
    call: M::Call,
    reply: M::Reply,
) -> Played<M::Reply>
where
    M::Reply: PartialEq,
{
    let ran = book.run(calls);
    let all = is_filled(&mut book, call, reply, most);
    let found = answers(&mut book, clock, call);
    (ran, all, found)
}

/// Does so in a book of a world.
fn played_in<V: Copy + PartialEq>(
    specs: &[Spec<V>],
    calls: &[(u32, RowCall<ChanCall<V>>)],
    most: u64,
    clock: u64,
    call: RowCall<ChanCall<V>>,
    reply: ChanReply<V>,
) -> Result<Played<ChanReply<V>>, OpenFault> {
    let book = book_of(specs);
    Ok(played(book.unwrap(), calls, most, clock, call, reply))
}

#[test]
fn takes_and_rewinds() {
    let calls = [send(0, 1), send(1, 2)];
    let one = ChanReply::B(BReply::Value(1));
    let found = played_in(&TWO, &calls, 0, 9, on(0, BCall::Recv(1)), one).unwrap();
    let ran = Err((1, TakeFault::NoChannel));
    let taken = [Ok((10, one)), Err(TakeFault::Waits)];
    let told = (true, taken, Some((10, 1)), Ok((2, one)), Some((2, 1)));
    assert_eq!(found, (ran, true, told));
}

#[test]
fn a_full_book_takes_no_entry() {
    let one = ChanReply::B(BReply::Count(1));
    let call = on(0, BCall::ReceiverCount(0));
    let found = played_in(&TWO, &[], 1_048_576, 0, call, one).unwrap();
    let full = Err(TakeFault::JournalFull);
    let rewound = Some((1_048_576, 1_048_575));
    let told = (false, [full, full], rewound, Ok((1_048_576, one)), rewound);
    assert_eq!(found, (Ok(()), true, told));
}

/// Whether the world in which a run starts shows the openings.
fn is_start(run: &Run<u64>) -> bool {
    let world = run.start(Global).unwrap();
    world.is_opened(run.specs())
}

/// Asserts that a run starts as its place 0.
fn starts(run: &Run<u64>, name: &str, entries: u64) {
    let is_start = is_start(run);
    let (openings, _, [(end, _), (start, _), _, _]) = walked(run, &ENDS);
    let told = (true, [true, true], [Ok(entries), Ok(0)]);
    assert_eq!((is_start, openings, [end, start]), told, "{name}");
}

/// Asserts that the run of a script starts as its place 0.
fn script_starts((name, script, entries): &(&str, &[u8], u64)) {
    let run = run_of(script);
    starts(&run, name, *entries);
}

#[test]
fn a_run_starts_as_its_place_0() {
    for row in &SCRIPTS {
        script_starts(row);
    }
}

/// Moves of a run of seven entries, and visits of four places.
pub static WALK: Walk = Walk {
    moves: &[
        Move::Back(5),
        Move::Forward(9),
        Move::Goto(4),
        Move::Start,
        Move::End,
    ],
    answers: &[Err(OutOfRange), Err(OutOfRange), Ok(()), Ok(()), Ok(())],
    visits: [Move::Goto(7), Move::Goto(2), Move::Goto(3), Move::Goto(0)],
};

/// What is found on that walk.
static WALKED: Walked = (
    [true, true],
    (7, 15),
    [
        (Ok(7), Some((3, Some(2), Some(3), Some(3)))),
        (Ok(2), Some((2, Some(1), Some(2), Some(0)))),
        (Ok(3), Some((3, Some(2), Some(3), Some(0)))),
        (Ok(0), Some((0, None, None, Some(0)))),
    ],
);

#[test]
fn a_run_is_walked() {
    let run = run_of(OVERRUN);
    let found = walked(&run, &WALK);
    let told = WALKED;
    assert_eq!(found, told);
}
