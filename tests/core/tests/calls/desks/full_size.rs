//! An actor of many receipts that waits.

use super::beside::{Play, plays};
use super::opened::broadcast_of;
use super::shared::{OfTwo, open_two, run_of_two};
use proved::RT;
use proved::rw_broadcast::BReply;
use proved::rw_journal::Run;
use proved::rw_world::{ChanReply, Spec};

/// Makes 10,000 calls by the first actor.
fn count_often(open: &mut OfTwo) {
    let (sender, _) = broadcast_of(&open.ends);
    for _ in 0..10_000 {
        let _ = open.desk.b_receiver_count(&RT, &mut open.first, sender);
    }
}

/// The stamp and the reply of a run's last entry, and how many entries it has.
fn last_of(run: Run<u64>) -> Option<(u64, ChanReply<u64>, usize)> {
    let all = run.entries();

    match all {
        [.., last] => Some((last.stamp, last.reply, all.len())),
        [] => None,
    }
}

#[test]
fn an_actor_of_10_000_receipts_waits() {
    let mut open = open_two(&[Spec::Broadcast(2)]);
    count_often(&mut open);
    let (open, in_time) = plays(open, Play::Receive);
    let last = last_of(run_of_two(open).unwrap());
    let wanted = Some((10_002, ChanReply::B(BReply::Value(5)), 10_002));
    assert_eq!((last, in_time), (wanted, true));
}
