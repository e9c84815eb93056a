//! The lives of a channel's handles.

use crate::texts::rows::run_of;
use proved::Global;
use proved::rw_findings::{Life, lives_of};
use proved::rw_handles::Kind;
use proved::rw_journal::Run;

/// Actor 0 makes receiver 2, which actor 1 receives with. Then actor 0 drops it, and calls with it once more.
const SCRIPT: &[u8] =
    b"broadcast 2\nactors 2\n0 0 subscribe 0\n1 0 send 0 1\n1 0 try-recv 2\n0 0 try-recv 2\n0 0 drop 2\n0 0 try-recv 2\n";

/// A handle's life, and how many calls actors 0 and 1 made with it.
type Lived = (Kind, u64, Option<u32>, Option<u64>, u64, u64);

static LIVES: [Lived; 3] = [
    (Kind::Sender, 0, None, None, 1, 1),
    (Kind::Receiver, 0, None, None, 0, 0),
    (Kind::Receiver, 1, Some(0), Some(5), 3, 1),
];

/// Returns the lives of the handles of a run's channel 0.
fn found_in<V: Copy>(run: Run<V>) -> proved::Vec<Life> {
    let lives = lives_of(Global, &run, 0);
    lives.unwrap()
}

/// Returns what a life shows.
fn lived(life: &Life) -> Lived {
    let calls = life.calls();
    (
        life.kind(),
        life.made(),
        life.maker(),
        life.dropped(),
        *calls.first().unwrap_or(&0),
        *calls.get(1).unwrap_or(&0),
    )
}

/// Asserts that these are the lives.
fn are_lived(lives: &[Life], told: &[Lived]) {
    assert_eq!(lives.len(), told.len());
    for (life, told) in lives.iter().zip(told) {
        assert_eq!(lived(life), *told);
    }
}

#[test]
fn lives_are_found() {
    let lives = found_in(run_of(SCRIPT));
    are_lived(&lives, &LIVES);
}
