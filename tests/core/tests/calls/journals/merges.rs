//! Journals of two channels, merged.

use super::by_channel::merged;
use crate::desks::opened::order;
use proved::rw_broadcast::BCall;
use proved::rw_journal::MergeFault;
use proved::rw_world::{ChanCall, Spec};
use support::desks::StampedCall;

/// Calls with the same reply in each state, by these actors and at these stamps.
fn steps(marks: &[(u32, u64)]) -> Vec<StampedCall<u64>> {
    let mut steps = Vec::new();
    for (actor, stamp) in marks {
        steps.push((*actor, *stamp, ChanCall::B(BCall::ReceiverCount(0))));
    }
    steps
}

/// The actors and stamps of two channels' entries, and why they aren't merged or in which order.
type Case = (
    &'static [(u32, u64)],
    &'static [(u32, u64)],
    Result<&'static [(u64, u32)], MergeFault>,
);

/// In which order the journals of these channels are merged, or why they aren't.
fn order_of(
    first: &[StampedCall<u64>],
    second: &[StampedCall<u64>],
) -> Result<Vec<(u64, u32)>, MergeFault> {
    let specs = [Spec::Broadcast(2), Spec::Broadcast(2)];
    let merged = merged(&specs, &[first, second]).unwrap();
    merged.map(|run| order(&run))
}

/// The channels of these entries are merged in the order that is wanted, or aren't for that reason.
fn is_order(
    found: &Result<Vec<(u64, u32)>, MergeFault>,
    wanted: Result<&[(u64, u32)], MergeFault>,
) {
    let found = found.as_deref().map_err(|fault| *fault);
    assert_eq!(found, wanted);
}

/// Merges the journals of a case.
fn merge_case(case: &Case) {
    let (first, second, wanted) = case;
    let (first, second) = (steps(first), steps(second));
    is_order(&order_of(&first, &second), *wanted);
}

static CASES: [Case; 6] = [
    (
        &[(0, 1), (0, 3)],
        &[(1, 1), (1, 2)],
        Ok(&[(1, 0), (1, 1), (2, 1), (3, 0)]),
    ),
    (&[(0, 2), (0, 2)], &[], Err(MergeFault::OutOfOrder(0, 1))),
    (&[(0, 0)], &[], Err(MergeFault::OutOfOrder(0, 0))),
    // An actor has one stamp on two channels.
    (&[(0, 1)], &[(0, 1)], Err(MergeFault::OutOfOrder(1, 0))),
    // Its own channel's order is looked at before the actor's.
    (
        &[(0, 1)],
        &[(0, 1), (1, 1)],
        Err(MergeFault::OutOfOrder(1, 1)),
    ),
    (&[], &[], Ok(&[])),
];

#[test]
fn merges() {
    for case in &CASES {
        merge_case(case);
    }
}
