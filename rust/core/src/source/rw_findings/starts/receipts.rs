//! Where handles were last given a value.
// From crates/rw_findings/src/starts/receipts.rt, with its contracts as comments. //+
use crate::shim::Vec; //+

//~ ghost use Rattle.std.specs.Prelude.{◌≡◌, ◌+◌, ◌<◌, ◌≤◌, IfOk, OnOk, map};
//~ ghost use Rattle.rw_findings.specs.Peaks.{peak_in};
//~ ghost use Rattle.rw_findings.specs.Receivers.{AreLastGiven, AreLastReceipts, given_by};
//~ ghost use Rattle.rw_navigator.specs.Places.{last_place};

use crate::source::rw_findings::peaks::Peaks;
use crate::source::rw_findings::totals::Totals;
use crate::source::rw_broadcast::{BCall, BReply};
use crate::source::rw_journal::Run;
use crate::source::rw_law::NoMemory;
use crate::source::rw_watch::{WCall, WReply};
use crate::source::rw_world::{ChanCall, ChanReply};
use crate::shim::alloc::Global;

/// Finds where each receiver of these totals was last given a value: the place of its last receive from a broadcast, or of its last look at
/// a watch, or 0 where there was none.
///
/// It passes once over the entries and makes no call. Besides the places it needs 8 bytes a handle.
pub fn last_receipts_of<V: Copy>(
    alloc: Global,
    run: &Run<V>,
    totals: &[Totals],
) -> Result<Vec<u64>, NoMemory>
//~     ensures { IfOk result (λ places. AreLastReceipts run.now totals.now places.items) }
{
    let mut given = Peaks::new(alloc);
    follow_to(alloc, run, &mut given, 0, run.len())?;
    listed(alloc, &given, totals)
}

/// Returns the places at which the receivers of totals were last given a value, or 0.
fn listed(alloc: Global, given: &Peaks, totals: &[Totals]) -> Result<Vec<u64>, NoMemory>
//~     ensures { IfOk result (λ places. places.items ≡ map (λ t. peak_in given.now t.channel t.receiver) totals.now) }
{
    let mut places = Vec::with_capacity(alloc, totals.len())?;
    for one in totals {
        places.push_reserved(last_of(given, one.channel, one.receiver));
    }
    Ok(places)
}

/// Returns the place at which a handle was last given a value, or 0.
pub(super) fn last_of(given: &Peaks, channel: u32, handle: u32) -> u64
//~     ensures { result ≡ peak_in given.now channel handle }
{
    match given.row(channel as usize).get(handle as usize) {
        Some(place) => *place,
        None => 0,
    }
}

/// Notes where handles were given values on the way from a place to another.
pub(super) fn follow_to<V: Copy>(
    alloc: Global,
    run: &Run<V>,
    given: &mut Peaks,
    from: u64,
    to: u64,
) -> Result<(), NoMemory>
//~     requires here { AreLastGiven run.now from given.old }
//~     requires on { from ≤ to }
//~     requires inside { to ≤ last_place run.now }
//~     ensures { OnOk result (AreLastGiven run.now to given.new) }
{
    'each_place: for place in from..to {
        follow(alloc, run, given, place)?;
    }
    Ok(())
}

/// Notes whether the entry that leads on from a place gave a handle a value.
fn follow<V: Copy>(
    alloc: Global,
    run: &Run<V>,
    given: &mut Peaks,
    place: u64,
) -> Result<(), NoMemory>
//~     requires here { AreLastGiven run.now place given.old }
//~     requires more { place < last_place run.now }
//~     ensures { OnOk result (AreLastGiven run.now (place + 1) given.new) }
{
    let entry = &run.entries()[place as usize];
    if let Some(handle) = given_by(&entry.call.call, &entry.reply) {
        given.raise(
            alloc,
            entry.call.channel as usize,
            handle as usize,
            place + 1,
        )?;
    }
    Ok(())
}

/// Returns the handle that a call gave a value.
fn given_by<V: Copy>(call: &ChanCall<V>, reply: &ChanReply<V>) -> Option<u32>
//~     ensures { result ≡ given_by call.now reply.now }
{
    match (*call, *reply) {
        (
            ChanCall::B(BCall::TryRecv(handle) | BCall::Recv(handle)),
            ChanReply::B(BReply::Value(_)),
        ) => Some(handle),
        (
            ChanCall::W(WCall::Borrow(handle) | WCall::Update(handle)),
            ChanReply::W(WReply::Value(_)),
        ) => Some(handle),
        _ => None,
    }
}
