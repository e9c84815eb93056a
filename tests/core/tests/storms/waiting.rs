//! The actors of a storm that wait, each until its channel is closed.

use crate::channels::{AWAITED_BROADCAST, PLAYERS, awaited_by};
use crate::making::Opened;
use proved::rw_broadcast::{BCall, BReply};
use proved::rw_desk::Pass;
use proved::rw_journal::Run;
use proved::rw_watch::{WCall, WReply};
use proved::rw_world::{ChanCall, ChanReply};

/// How a wait ended.
#[derive(Clone, Copy)]
enum Woken {
    /// By this many values, received or missed.
    Told(u64),
    /// By the channel's close.
    AtEnd,
    /// By a reply that no waiter should get.
    Astray,
}

/// Returns how the wait of this call ended, from its reply.
fn woken_by(call: &ChanCall<u64>, reply: &ChanReply<u64>) -> Woken {
    match (call, reply) {
        (ChanCall::B(_), ChanReply::B(BReply::Value(_))) => Woken::Told(1),
        (ChanCall::B(_), ChanReply::B(BReply::Lagged(missed))) => Woken::Told(*missed),
        (ChanCall::W(WCall::Changed(_)), ChanReply::W(WReply::Done)) => Woken::Told(1),
        (ChanCall::B(BCall::Recv(_)), ChanReply::B(BReply::Closed)) => Woken::AtEnd,
        (ChanCall::W(WCall::Changed(_)), ChanReply::W(WReply::Closed)) => Woken::AtEnd,
        (ChanCall::W(WCall::AwaitClosed(_)), ChanReply::W(WReply::Done)) => Woken::AtEnd,
        _ => Woken::Astray,
    }
}

/// Waits repeatedly until the channel is closed. Returns how many values the waiter was notified of.
pub fn wait_for_end(desk: &Opened, pass: &mut Pass<u64>, waiter: u32) -> Option<u64> {
    let (channel, call) = awaited_by(waiter);
    let mut told = 0;
    loop {
        let reply = desk.make(pass, channel, call, true).ok()?;
        match woken_by(&call, &reply) {
            Woken::Told(values) => told += values,
            Woken::AtEnd => return Some(told),
            Woken::Astray => return None,
        }
    }
}

/// Returns how many values were sent on the broadcast whose values are awaited.
fn sent(run: &Run<u64>) -> u64 {
    let entries = run.entries().iter();
    let there = entries.filter(|entry| entry.call.channel == AWAITED_BROADCAST);
    there
        .filter(|entry| matches!(entry.reply, ChanReply::B(BReply::Sent(_))))
        .count() as u64
}

/// Whether each actor did all that it had to, and the two receivers of the broadcast were notified of every value that was sent.
pub fn were_told(run: &Run<u64>, told: &[Option<u64>]) -> bool {
    let sent = sent(run);
    let [first, second] = [PLAYERS as usize, PLAYERS as usize + 1];
    told.iter().all(Option::is_some) && told[first] == Some(sent) && told[second] == Some(sent)
}
