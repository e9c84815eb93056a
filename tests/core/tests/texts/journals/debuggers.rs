//! Debuggers of runs, and what lends its run to others meanwhile.

use super::worlds::WALK;
use crate::texts::rows::{OVERRUN, run_of};
use proved::rw_console::Walk;
use proved::rw_journal::Run;
use proved::rw_navigator::{Cond, Debugger, Move, OutOfRange, Visitor, lag_at};
use proved::{Global, Vec};

/// Asserts that the moves with a debugger have the results that are told. Returns the place after them, and how many calls its
/// machine had.
fn moved<V: Copy>(
    debugger: &mut Debugger<V>,
    moves: &[Move],
    told: &[Result<(), OutOfRange>],
) -> (u64, u64) {
    let answers = debugger.walk(Global, moves).unwrap();
    assert_eq!(answers.as_slice(), told);
    drop(answers);
    (debugger.place(), debugger.turns())
}

/// Does so with a debugger of a run, from place 0.
fn walked<V: Copy>(run: &Run<V>, moves: &[Move], told: &[Result<(), OutOfRange>]) -> (u64, u64) {
    let mut debugger = Debugger::open(Global, run).unwrap();

    moved(&mut debugger, moves, told)
}

#[test]
fn a_run_is_walked() {
    let run = run_of(OVERRUN);
    let found = walked(&run, WALK.moves, WALK.answers);
    assert_eq!(found, (7, 15));
}

#[test]
fn a_run_that_is_taken_over_is_lent() {
    let mut debugger = Debugger::of_run(Global, run_of(OVERRUN)).ok().unwrap();
    assert_eq!((debugger.place(), debugger.len()), (0, 7));
    assert_eq!(moved(&mut debugger, WALK.moves, WALK.answers), (7, 15));
    debugger.keep_index(Global, Cond::Actor(1));
    let (run, visitor) = debugger.pause();
    let found = walked(&run, WALK.moves, WALK.answers);
    assert_eq!(found, (7, 15));
    let debugger = visitor.resume(run);
    assert!(debugger.index_of(Cond::Actor(1)).is_some());
    assert_eq!(
        (debugger.place(), debugger.turns(), debugger.len()),
        (7, 15, 7)
    );
}

#[test]
fn the_parts_of_a_run_are_one() {
    let (specs, entries) = run_of(OVERRUN).into_parts();
    assert_eq!((specs.len(), entries.len()), (1, 7));
    assert_eq!(Run::of_parts(specs, entries).len(), 7);
}

/// The third send overwrites the first value, and the first receive is told so.
#[test]
fn a_visitor_goes_on_from_call_to_call() {
    let run = run_of(OVERRUN);
    let mut visitor = Visitor::open(Global, &run).unwrap();
    let mut lags = vec![lag_at(visitor.state(), 0, 1)];
    for _ in 0..run.len() {
        visitor.advance(&run);
        lags.push(lag_at(visitor.state(), 0, 1));
    }
    assert_eq!(lags, [0, 0, 0, 1, 0, 0, 0, 0].map(Some));
}

#[test]
fn a_walk_goes_on_where_it_paused() {
    let mut walk = Walk::of_run(Global, run_of(OVERRUN)).ok().unwrap();
    walk.step(Move::Goto(3)).unwrap();
    let (run, paused) = walk.pause();
    assert_eq!(run.len(), 7);
    let mut walk = paused.resume(run);
    let mut text = Vec::new(Global);
    walk.push_json(&mut text).unwrap();
    let channel = r#"{"capacity":2,"closed":false,"kind":"broadcast","made":2,"queued":2,"receivers":[{"handle":1,"lag":1,"position":0,"unread":3}],"senders":[0],"sent":3,"window":[2,3]}"#;
    let wanted = format!("{{\"channels\":[{channel}],\"len\":7,\"place\":3}}\n");
    assert_eq!(str::from_utf8(&text).unwrap(), wanted);
    assert_eq!(walk.step(Move::Forward(5)), Err(OutOfRange));
    assert_eq!(walk.step(Move::Forward(4)), Ok(()));
}
