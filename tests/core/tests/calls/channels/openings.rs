//! Openings of both channels, the room of a watch, and sizes.

use proved::Global;
use proved::rw_broadcast::{BCall, BPatch, BReply, Broadcast, OpenFault};
use proved::rw_law::Reversible;
use proved::rw_watch::{WCall, WPatch, WReply, Watch};

/// What capacity is asked for, and how many values the channel then retains.
static CAPACITIES: [(u32, Result<u64, OpenFault>); 5] = [
    (0, Err(OpenFault::BadCapacity)),
    (1, Ok(1)),
    (3, Ok(4)),
    (65_536, Ok(65_536)),
    (65_537, Err(OpenFault::BadCapacity)),
];

/// Returns how many values a channel retains that is opened with this capacity. Drops the channel.
fn retained(asked: u32) -> Result<u64, OpenFault> {
    let machine: Broadcast<u64> = Broadcast::open(Global, asked)?;
    Ok(machine.capacity())
}

#[test]
fn capacities_of_openings() {
    for (asked, answer) in &CAPACITIES {
        let found = (*asked, retained(*asked));
        assert_eq!(found, (*asked, *answer));
    }
}

#[test]
fn room_grows_call_by_call() {
    let mut machine = Watch::open(Global, 0).unwrap();
    grows(&mut machine);
    drop(machine);
}

/// Makes room for each of 98 receivers just before it is made.
fn grows(machine: &mut Watch<u64>) {
    for number in 2..100 {
        assert!(machine.weight() < 100);
        machine.ready(1).unwrap();
        assert!(machine.weight() < machine.limit());
        let (reply, _patch) = machine.apply(&WCall::Subscribe(0));
        assert!(!Watch::<u64>::waits(&reply) && !Watch::<u64>::strays(&reply));
        assert_eq!(reply, WReply::New(number));
    }
}

#[test]
fn calls_replies_and_patches_are_small() {
    let calls = [size_of::<BCall<u64>>(), size_of::<WCall<u64>>()];
    let replies = [size_of::<BReply<u64>>(), size_of::<WReply<u64>>()];
    let patches = [size_of::<BPatch<u64>>(), size_of::<WPatch<u64>>()];
    assert_eq!([calls, replies, patches], [[16, 16], [16, 16], [16, 16]]);
}
