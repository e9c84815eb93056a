//! Comparisons of channels whose handles have other numbers.

use crate::met::{say, tried};
use crate::refusing::paused;
use proved::Global;
use proved::rw_broadcast::Broadcast;
use proved::rw_handles::Kind;
use proved::rw_law::NoMemory;
use proved::rw_watch::Watch;

/// Compares two channels whose handles have the same numbers, and others.
fn compare<C>(
    what: &str,
    both: [C; 2],
    kind: fn(&C, u32) -> Option<Kind>,
    is_alike: fn(&C, &C, &[u32]) -> Result<bool, NoMemory>,
) {
    for numbers in [[0, 1], [1, 0]] {
        let alike = tried(
            both.each_ref(),
            |both| both.map(|it| [0, 1].map(|handle| kind(it, handle))),
            |[here, there]| is_alike(here, there, &numbers),
        );
        say!("{what} by {numbers:?}: {alike:?}");
    }
    paused(|| drop(both))
}

/// Plays all of these.
pub fn play() {
    let broadcast = || Broadcast::open(Global, 4).unwrap();
    let both = paused(|| [broadcast(), broadcast()]);
    compare(
        "broadcasts",
        both,
        Broadcast::kind,
        |here, there, numbers| here.is_alike(Global, there, numbers),
    );
    let watch = || Watch::open(Global, 5).unwrap();
    let both = paused(|| [watch(), watch()]);
    compare("watches", both, Watch::kind, |here, there, numbers| {
        here.is_alike(Global, there, numbers)
    });
}
