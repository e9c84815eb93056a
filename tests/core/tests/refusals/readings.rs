//! Machines as they are opened, and what is compared of one before and after a refusal.

use proved::Global;
use proved::rw_broadcast::Broadcast;
use proved::rw_law::{NoMemory, Payload, Reversible};
use proved::rw_watch::Watch;
use proved::rw_world::{Chan, Spec, World, open};

/// The specs of the worlds that are played.
pub static SPECS: [Spec<u64>; 2] = [Spec::Broadcast(2), Spec::Watch(7)];

/// A machine that can be compared before and after a refusal.
pub trait Shows: Reversible + Sized {
    /// Opens the machine that is played.
    fn open() -> Result<Self, NoMemory>;

    /// Returns what is compared. A machine of one channel shows it first.
    fn readings(&self) -> Readings;
}

/// What is compared of a channel: its handles, its sends or notified changes, the word of its oldest retained value or of its value, and
/// how many values receiver 1 has yet to receive, or that it has yet to see one.
#[derive(Clone, Copy, Debug, PartialEq)]
pub struct ChannelReadings {
    made: u32,
    count: u64,
    value: Option<u64>,
    unread: Option<u64>,
}

/// What is compared of two channels.
pub type Readings = [Option<ChannelReadings>; 2];

/// A broadcast that retains two values.
impl Shows for Broadcast<u64> {
    fn open() -> Result<Broadcast<u64>, NoMemory> {
        match Broadcast::open(Global, 2) {
            Ok(machine) => Ok(machine),
            Err(_) => Err(NoMemory),
        }
    }

    fn readings(&self) -> Readings {
        [Some(of_broadcast(self)), None]
    }
}

/// A watch of 7.
impl Shows for Watch<u64> {
    fn open() -> Result<Watch<u64>, NoMemory> {
        Watch::open(Global, 7)
    }

    fn readings(&self) -> Readings {
        [Some(of_watch(self)), None]
    }
}

/// A world of both.
impl Shows for World<u64> {
    fn open() -> Result<World<u64>, NoMemory> {
        match open(Global, &SPECS) {
            Ok(world) => Ok(world),
            Err(_) => Err(NoMemory),
        }
    }

    fn readings(&self) -> Readings {
        of_world(self)
    }
}

/// The word of a value, if there is one.
fn word_in<V: Payload>(value: Option<V>) -> Option<u64> {
    value.map(|value| value.word())
}

/// Whether a receiver has yet to see a value, as a number of values.
fn unseen(is_seen: Option<bool>) -> Option<u64> {
    is_seen.map(|is_seen| u64::from(!is_seen))
}

fn of_broadcast<V: Payload>(machine: &Broadcast<V>) -> ChannelReadings {
    ChannelReadings {
        made: machine.made(),
        count: machine.sent(),
        value: word_in(machine.window(0)),
        unread: machine.unread(1),
    }
}

fn of_watch<V: Payload>(machine: &Watch<V>) -> ChannelReadings {
    ChannelReadings {
        made: machine.made(),
        count: machine.version(),
        value: word_in(Some(machine.value())),
        unread: unseen(machine.is_seen(1)),
    }
}

fn of_channel<V: Payload>(channel: Option<&Chan<V>>) -> Option<ChannelReadings> {
    match channel? {
        Chan::Broadcast(machine) => Some(of_broadcast(machine)),
        Chan::Watch(machine) => Some(of_watch(machine)),
    }
}

/// Returns what is compared of a world.
pub fn of_world<V: Payload>(world: &World<V>) -> Readings {
    [of_channel(world.channel(0)), of_channel(world.channel(1))]
}

/// Returns how many handles a channel made, and how many values were sent or changes notified.
pub fn counted<V: Copy>(channel: &Chan<V>) -> (u32, u64) {
    match channel {
        Chan::Broadcast(machine) => (machine.made(), machine.sent()),
        Chan::Watch(machine) => (machine.made(), machine.version()),
    }
}
