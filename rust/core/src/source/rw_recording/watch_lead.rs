//! The lead of a watch: calls that lead a new channel to what another is like.
// From crates/rw_recording/src/watch_lead.rt, with its contracts as comments. //+

//~ ghost use Rattle.std.specs.Prelude.{◌≡◌, IfErr};
//~ ghost use Rattle.rw_recording.specs.NoLeads.{IsUnled};

use crate::source::rw_recording::faults::WindowFault;
use crate::source::rw_recording::leading::Leading;
use crate::source::rw_handles::Kind;
use crate::source::rw_watch::{WCall, Watch};
use crate::source::rw_world::ChanCall;

/// Makes the receivers that have seen the value, or those that haven't. Where `has_first`, receiver 1 stands for the first. Returns
/// whether there is any.
fn make_receivers(
    leading: &mut Leading,
    goal: &Watch<u64>,
    seen: bool,
    has_first: bool,
) -> Result<bool, WindowFault>
//~     ensures same { leading.new ≡ leading.old }
//~     ensures fault { IfErr result (IsUnled leading.old) }
{
    let mut has_any = false;
    for handle in 0..goal.made() {
        if goal.is_seen(handle) == Some(seen) {
            if has_first && !has_any {
                leading.stand(handle, 1);
            } else {
                leading.make_for(handle, ChanCall::W(WCall::Subscribe(0)))?;
            }
            has_any = true;
        }
    }
    Ok(has_any)
}

/// Makes each sender. Sender 0 stands for the first. Returns whether there is one.
fn make_senders(leading: &mut Leading, goal: &Watch<u64>) -> Result<bool, WindowFault>
//~     ensures same { leading.new ≡ leading.old }
//~     ensures fault { IfErr result (IsUnled leading.old) }
{
    let mut has_sender = false;
    for handle in 0..goal.made() {
        if let Some(Kind::Sender) = goal.kind(handle) {
            if has_sender {
                leading.make_for(handle, ChanCall::W(WCall::CloneSender(0)))?;
            } else {
                leading.stand(handle, 0);
            }
            has_sender = true;
        }
    }
    Ok(has_sender)
}

/// Leads a new channel to what the other is like: makes the receivers that haven't seen the value, writes it, makes those that have,
/// and the senders, and drops those two handles of the opening that stand for none.
pub(crate) fn lead_watch(leading: &mut Leading, goal: &Watch<u64>) -> Result<(), WindowFault>
//~     ensures same { leading.new ≡ leading.old }
//~     ensures fault { IfErr result (IsUnled leading.old) }
{
    let has_unseen = make_receivers(leading, goal, false, true)?;
    let _reply = leading.make(ChanCall::W(WCall::SendReplace(0, goal.value())))?;
    let _has_seen = make_receivers(leading, goal, true, false)?;
    let has_sender = make_senders(leading, goal)?;
    if !has_unseen {
        let _reply = leading.make(ChanCall::W(WCall::DropHandle(1)))?;
    }
    if !has_sender {
        let _reply = leading.make(ChanCall::W(WCall::DropHandle(0)))?;
    }
    Ok(())
}
