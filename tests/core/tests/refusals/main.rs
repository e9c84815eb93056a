//! Calls that need memory, with each of their requests refused in turn, one in each run.
//!
//! Each part makes a call again where it returns that memory was refused. What the part says is the same whichever request is refused, and
//! a refusal changes nothing.

mod books;
mod broadcasts;
mod by_handles;
mod callers;
mod calls;
mod comparisons;
mod desks;
mod findings;
mod flights;
mod hand_offs;
mod journals;
mod lines;
mod machines;
mod met;
mod passes;
mod readings;
mod recent_calls;
mod renumberings;
mod runs;
mod scripts;
mod seats;
mod sessions;
mod texts;
mod walks;
mod watches;
mod worlds;

#[path = "../../../../rust/tests/support/refusing.rs"]
mod refusing;

use met::said_by;
use refusing::{Refusal, Refusing, refusing};

#[global_allocator]
static ALLOCATOR: Refusing = Refusing;

/// Plays a part, which has to say this, as it is and then with each of its requests refused.
fn is_answered(play: fn(), wanted: &str) {
    let (said, met) = said_by(play);
    assert_eq!((said.as_str(), met), (wanted, 0));
    let mut all = 0;
    for allowed in 0.. {
        let ((said, met), refused) = refusing(Refusal::only(allowed), || said_by(play));
        assert_eq!(said, wanted, "request {allowed}");
        assert!(met <= refused, "{met} calls say so of {refused} requests");
        all += met;
        if refused == 0 {
            break;
        }
    }
    assert!(all > 0, "no call has returned that memory was refused");
}

#[test]
fn findings() {
    is_answered(findings::play, include_str!("said/findings.txt"));
}

#[test]
fn machines() {
    is_answered(machines::play, include_str!("said/machines.txt"));
}

#[test]
fn renumberings() {
    is_answered(renumberings::play, include_str!("said/renumberings.txt"));
}

#[test]
fn recent_calls() {
    is_answered(recent_calls::play, include_str!("said/recent_calls.txt"));
}

#[test]
fn flights() {
    is_answered(flights::play, include_str!("said/flights.txt"));
}

#[test]
fn comparisons() {
    is_answered(comparisons::play, include_str!("said/comparisons.txt"));
}

#[test]
fn worlds() {
    is_answered(worlds::play, include_str!("said/worlds.txt"));
}

#[test]
fn runs() {
    is_answered(runs::play, include_str!("said/runs.txt"));
}

#[test]
fn walks() {
    is_answered(walks::play, include_str!("said/walks.txt"));
}

#[test]
fn journals() {
    is_answered(journals::play, include_str!("said/journals.txt"));
}

#[test]
fn passes() {
    is_answered(passes::play, include_str!("said/passes.txt"));
}

#[test]
fn desks() {
    is_answered(desks::play, include_str!("said/desks.txt"));
}

#[test]
fn by_handles() {
    is_answered(by_handles::play, include_str!("said/by_handles.txt"));
}

#[test]
fn hand_offs() {
    is_answered(hand_offs::play, include_str!("said/hand_offs.txt"));
}

#[test]
fn seats() {
    is_answered(seats::play, include_str!("said/seats.txt"));
}

#[test]
fn lines() {
    is_answered(lines::play, include_str!("said/lines.txt"));
}

#[test]
fn scripts() {
    is_answered(scripts::play, include_str!("said/scripts.txt"));
}

#[test]
fn texts() {
    is_answered(texts::play, include_str!("said/texts.txt"));
}

#[test]
fn sessions() {
    is_answered(sessions::play, include_str!("said/sessions.txt"));
}
