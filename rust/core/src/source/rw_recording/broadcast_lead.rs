//! The lead of a broadcast: calls that lead a new channel to what another is like.
// From crates/rw_recording/src/broadcast_lead.rt, with its contracts as comments. //+
use crate::shim::Vec; //+

//~ ghost use Rattle.std.specs.Prelude.{◌≡◌, IfErr};
//~ ghost use Rattle.rw_recording.specs.NoLeads.{IsUnled};

use crate::source::rw_recording::faults::WindowFault;
use crate::source::rw_recording::leading::Leading;
use crate::source::rw_broadcast::{BCall, Broadcast};
use crate::source::rw_handles::Kind;
use crate::source::rw_law::NoMemory;
use crate::source::rw_world::ChanCall;
use crate::shim::alloc::Global;

/// A live receiver, with its position.
#[derive(Clone, Copy)]
struct Standing {
    position: u64,
    handle: u32,
}

impl Standing {
    /// Returns the number by which receivers are sorted: first by position, then by handle.
    fn order(&self) -> u128 {
        u128::from(self.position) * 4_294_967_296 + u128::from(self.handle)
    }
}

/// Returns the live receivers, by their positions.
fn receivers_of(alloc: Global, goal: &Broadcast<u64>) -> Result<Vec<Standing>, NoMemory> {
    let mut receivers = Vec::new(alloc);
    for handle in 0..goal.made() {
        if let Some(position) = goal.position(handle) {
            receivers.push(Standing { position, handle })?;
        }
    }
    receivers.sort_unstable_by_key(|receiver| receiver.order());
    Ok(receivers)
}

/// Returns the position of the oldest retained value.
fn oldest(goal: &Broadcast<u64>) -> u64 {
    goal.sent().saturating_sub(goal.capacity())
}

/// Returns the position from which values are sent: the least of the oldest retained one's and the receivers'.
fn first_position(goal: &Broadcast<u64>, receivers: &[Standing]) -> u64 {
    match receivers.first() {
        Some(receiver) => oldest(goal).min(receiver.position),
        None => oldest(goal),
    }
}

/// Returns the value of a position. That of an evicted one isn't known: it is 0.
fn value_at(goal: &Broadcast<u64>, position: u64) -> u64 {
    match position.checked_sub(oldest(goal)) {
        Some(i) => goal.window(i).unwrap_or(0),
        None => 0,
    }
}

/// Sends the values of positions, one after another.
fn send_all(
    leading: &mut Leading,
    goal: &Broadcast<u64>,
    first: u64,
    until: u64,
) -> Result<(), WindowFault>
//~     ensures same { leading.new ≡ leading.old }
//~     ensures fault { IfErr result (IsUnled leading.old) }
{
    for position in first..until {
        let _reply = leading.make(ChanCall::B(BCall::Send(0, value_at(goal, position))))?;
    }
    Ok(())
}

/// Makes each receiver once the values before its position were sent. Receiver 1 stands for the first, where this is at the first
/// position. Then sends the other values.
fn make_receivers(
    leading: &mut Leading,
    goal: &Broadcast<u64>,
    receivers: &[Standing],
    first: u64,
) -> Result<(), WindowFault>
//~     ensures same { leading.new ≡ leading.old }
//~     ensures fault { IfErr result (IsUnled leading.old) }
{
    let mut next = first;
    for (i, receiver) in receivers.iter().enumerate() {
        send_all(leading, goal, next, receiver.position)?;
        next = receiver.position;
        if i == 0 && next == first {
            leading.stand(receiver.handle, 1);
        } else {
            leading.make_for(receiver.handle, ChanCall::B(BCall::Subscribe(0)))?;
        }
    }
    send_all(leading, goal, next, goal.sent())
}

/// Makes each sender and weak sender. Sender 0 stands for the first sender. Returns whether there is one.
fn make_senders(leading: &mut Leading, goal: &Broadcast<u64>) -> Result<bool, WindowFault>
//~     ensures same { leading.new ≡ leading.old }
//~     ensures fault { IfErr result (IsUnled leading.old) }
{
    let mut has_sender = false;
    for handle in 0..goal.made() {
        match goal.kind(handle) {
            Some(Kind::Sender) => {
                if has_sender {
                    leading.make_for(handle, ChanCall::B(BCall::CloneSender(0)))?;
                } else {
                    leading.stand(handle, 0);
                    has_sender = true;
                }
            }
            Some(Kind::Weak) => leading.make_for(handle, ChanCall::B(BCall::Downgrade(0)))?,
            _ => {}
        }
    }
    Ok(has_sender)
}

/// Leads a new channel to what the other is like: sends from the first position that matters, makes the handles, and drops those two of
/// the opening that stand for none.
pub(crate) fn lead_broadcast(
    alloc: Global,
    leading: &mut Leading,
    goal: &Broadcast<u64>,
) -> Result<(), WindowFault>
//~     ensures same { leading.new ≡ leading.old }
//~     ensures fault { IfErr result (IsUnled leading.old) }
{
    let receivers = receivers_of(alloc, goal)?;
    let first = first_position(goal, &receivers);
    make_receivers(leading, goal, &receivers, first)?;
    let has_sender = make_senders(leading, goal)?;
    let has_first = match receivers.first() {
        Some(receiver) => receiver.position == first,
        None => false,
    };
    if !has_first {
        let _reply = leading.make(ChanCall::B(BCall::DropHandle(1)))?;
    }
    if !has_sender {
        let _reply = leading.make(ChanCall::B(BCall::DropHandle(0)))?;
    }
    Ok(())
}
