//! Desks whose channels are called by handles, each opened, played and closed.

use crate::desks::{last_hands, new_desk, say_closed};
use crate::met::say;
use crate::{broadcasts, watches};
use proved::Vec;
use proved::rw_desk::{Desk, Ends, Pass};
use proved::rw_world::Spec;

/// What is played of a desk.
#[derive(Clone, Copy)]
enum Part {
    /// A broadcast, whose handles are dropped at last.
    Broadcast,
    /// A watch, whose handles are forgotten at last.
    Watch,
    /// Two watches, of which one closes for its sender and one for its receiver.
    Closing,
}

impl Part {
    /// The channels of the desk.
    fn specs(self) -> &'static [Spec<u64>] {
        match self {
            Part::Broadcast => &[Spec::Broadcast(2)],
            Part::Watch => &[Spec::Watch(7)],
            Part::Closing => &[Spec::Watch(7), Spec::Watch(8)],
        }
    }

    /// How many actors it has.
    fn actors(self) -> u32 {
        match self {
            Part::Broadcast => broadcasts::ACTORS,
            Part::Watch => watches::ACTORS,
            Part::Closing => 4,
        }
    }
}

/// Plays a desk that is lent.
fn play_lent(desk: &Desk<u64>, passes: &mut [Pass<u64>], ends: Vec<Ends>, part: Part) {
    match part {
        Part::Broadcast => broadcasts::play_handles(desk, passes, last_hands(ends)),
        Part::Watch => watches::play_handles(desk, passes, last_hands(ends)),
        Part::Closing => watches::close_both(desk, passes, ends),
    }
}

/// Opens a desk for a part, plays it, and closes it.
fn play_part(part: Part) {
    let opened = new_desk(part.specs(), part.actors());
    let Ok((desk, mut passes, ends)) = opened else {
        return say!("  no desk");
    };
    play_lent(&desk, &mut passes, ends, part);
    say_closed(desk, passes);
}

/// Plays each part on a desk of its own.
pub fn play() {
    say!("a broadcast of a desk, by its handles");
    play_part(Part::Broadcast);
    say!("a watch of a desk, by its handles");
    play_part(Part::Watch);
    say!("watches of a desk that close");
    play_part(Part::Closing)
}
