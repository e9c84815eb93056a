//! The state of a world as JSON.
// From crates/rw_blocks/src/json.rt, with its contracts as comments. //+
use crate::shim::{SliceExt, String, Vec}; //+

//~ ghost use Rattle.std.specs.Prelude.{◌≡◌, ◌++◌, [], codes, length, map, option_map, option_to_list, IfOk, OnOk};
//~ ghost use Rattle.serde_json.specs.Data.{object};
//~ ghost use Rattle.serde_json.specs.View.{view, members_view};
//~ ghost use Rattle.rw_blocks.specs.Json.{broadcast_json, broadcast_with, channel_json, json_text, receiver_json, receivers_json};
//~ ghost use Rattle.rw_blocks.specs.Json.{handle_json, handles_json, watch_json, watcher_json, watchers_json, world_json, natural};
//~ ghost use Rattle.rw_broadcast.specs.Machine.{position_at};
//~ ghost use Rattle.rw_watch.specs.Machine.{mark_at};
//~ ghost use Rattle.std.specs.Prelude.{slice_get};

use crate::source::rw_broadcast::Broadcast;
use crate::source::rw_handles::Kind;
use crate::source::rw_law::Reversible;
use crate::source::rw_watch::Watch;
use crate::source::rw_world::{Chan, World};
use crate::shim::serde_json::{Map, Value, json, put};
use crate::shim::alloc::{AllocError, Global};

/// Appends a line with the state that a world shows at a place of a run of `len` entries.
pub fn push_json(
    alloc: Global,
    out: &mut Vec<u8>,
    world: &World<u64>,
    len: u64,
    place: u64,
) -> Result<(), AllocError>
//~     ensures { OnOk result (out.new.items ≡ out.old.items ++ json_text (⟦<World<u64> as Reversible>⟧.shown world.now) len place ++ codes "\n") }
{
    let text = world_text(alloc, world, len, place)?;
    out.extend_from_slice(&text)?;
    out.extend_from_slice(b"\n")
}

fn world_text(
    alloc: Global,
    world: &World<u64>,
    len: u64,
    place: u64,
) -> Result<Vec<u8>, AllocError>
//~     ensures { IfOk result (λ text. text.items ≡ json_text (⟦<World<u64> as Reversible>⟧.shown world.now) len place) }
{
    world_value(alloc, world, len, place)?./*~to_vec~*//*+*/try_to_vec/*+*/(alloc)
}

//~ #[tactic(auto, unfolding(crate::specs::Json::world_json))]
fn world_value(alloc: Global, world: &World<u64>, len: u64, place: u64) -> Result<Value, AllocError>
//~     ensures { IfOk result (λ value. view value ≡ world_json (⟦<World<u64> as Reversible>⟧.shown world.now) len place) }
{
    json!(in alloc; {"channels": channel_values(alloc, world)?, "len": len, "place": place})
}

fn channel_values(alloc: Global, world: &World<u64>) -> Result<Vec<Value>, AllocError>
//~     ensures { IfOk result (λ list. map view list.items ≡ map channel_json (⟦<World<u64> as Reversible>⟧.shown world.now)) }
{
    let mut list = Vec::new(alloc);
    let mut i = 0;
    'each_channel: while let Some(channel) = world.channel(i) {
        list.push(channel_value(alloc, channel)?)?;
        i += 1;
    }
    Ok(list)
}

fn channel_value(alloc: Global, channel: &Chan<u64>) -> Result<Value, AllocError>
//~     ensures { IfOk result (λ value. view value ≡ channel_json (⟦<Chan<u64> as Reversible>⟧.shown channel.now)) }
{
    match channel {
        Chan::Broadcast(machine) => broadcast_value(alloc, machine),
        Chan::Watch(machine) => watch_value(alloc, machine),
    }
}

/// Appends a value, if there is one.
fn push_some(list: &mut Vec<Value>, value: Option<Value>) -> Result<(), AllocError>
//~     ensures { OnOk result (map view list.new.items ≡ map view list.old.items ++ option_to_list (option_map view value)) }
{
    if let Some(value) = value {
        list.push(value)?;
    }
    Ok(())
}

/// Returns the number of a handle if it is alive and of the wanted kind. `own` is its kind, if it is alive.
fn handle_value(wanted: Kind, h: u32, own: Option<Kind>) -> Option<Value>
//~     ensures { option_map view result ≡ handle_json wanted h own }
{
    match own {
        Some(kind) if kind == wanted => Some(Value::from(h)),
        _ => None,
    }
}

fn broadcast_value(alloc: Global, channel: &Broadcast<u64>) -> Result<Value, AllocError>
//~     ensures { IfOk result (λ value. view value ≡ broadcast_json channel.now.shown) }
{
    let mut members = Map::new(alloc);
    put_members(alloc, &mut members, channel)?;
    if channel.alive(Kind::Weak) != 0 {
        let weak = broadcast_handles(alloc, channel, Kind::Weak)?;
        put(&mut members, alloc, "weak", Value::from(weak))?;
    }
    Ok(Value::Object(members))
}

/// Adds the members of a broadcast to an empty object, except the one for weak senders.
fn put_members(
    alloc: Global,
    members: &mut Map<String, Value>,
    channel: &Broadcast<u64>,
) -> Result<(), AllocError>
//~     requires { members.old.entries ≡ [] }
//~     ensures { OnOk result (object (members_view members.new.entries) ≡ broadcast_with channel.now.shown []) }
{
    put(members, alloc, "capacity", Value::from(channel.capacity()))?;
    put(members, alloc, "closed", Value::from(channel.closed()))?;
    let kind = Value::try_from_str(alloc, "broadcast")?;
    put(members, alloc, "kind", kind)?;
    put(members, alloc, "made", Value::from(channel.made()))?;
    put(members, alloc, "queued", Value::from(channel.queued()))?;
    let receivers = receiver_values(alloc, channel)?;
    put(members, alloc, "receivers", Value::from(receivers))?;
    let senders = broadcast_handles(alloc, channel, Kind::Sender)?;
    put(members, alloc, "senders", Value::from(senders))?;
    put(members, alloc, "sent", Value::from(channel.sent()))?;
    let window = window_values(alloc, channel)?;
    put(members, alloc, "window", Value::from(window))
}

/// Returns the retained values.
fn window_values(alloc: Global, channel: &Broadcast<u64>) -> Result<Vec<Value>, AllocError>
//~     ensures { IfOk result (λ list. map view list.items ≡ map natural channel.now.shown.window) }
{
    // The proof needs this call: it bounds their number.
    let _weight = channel.weight();
    let mut list = Vec::new(alloc);
    let mut i = 0;
    'each_value: while let Some(value) = channel.window(i) {
        list.push(Value::from(value))?;
        i += 1;
    }
    Ok(list)
}

//~ #[tactic(auto, using(crate::proofs::HandleLists::handle_lists))]
fn broadcast_handles(
    alloc: Global,
    channel: &Broadcast<u64>,
    kind: Kind,
) -> Result<Vec<Value>, AllocError>
//~     ensures { IfOk result (λ list. map view list.items ≡ handles_json kind channel.now.shown.slots (length channel.now.shown.slots)) }
{
    let mut list = Vec::new(alloc);
    'each_handle: for h in 0..channel.made() {
        push_some(&mut list, handle_value(kind, h, channel.kind(h)))?;
    }
    Ok(list)
}

/// Returns a receiver of a broadcast, if it is alive.
fn receiver_value(
    alloc: Global,
    channel: &Broadcast<u64>,
    h: u32,
) -> Result<Option<Value>, AllocError>
//~     ensures { IfOk result (λ value. option_map view value
//~         ≡ option_map (receiver_json channel.now.shown h) (position_at (slice_get channel.now.shown.slots h))) }
{
    let Some(position) = channel.position(h) else {
        return Ok(None);
    };
    let lag = channel.lag(h).unwrap();
    let unread = channel.unread(h).unwrap();
    let value = json!(in alloc; {"handle": h, "lag": lag, "position": position, "unread": unread})?;
    Ok(Some(value))
}

//~ #[tactic(auto, using(crate::proofs::HandleLists::handle_lists))]
fn receiver_values(alloc: Global, channel: &Broadcast<u64>) -> Result<Vec<Value>, AllocError>
//~     ensures { IfOk result (λ list. map view list.items ≡ receivers_json channel.now.shown (length channel.now.shown.slots)) }
{
    let mut list = Vec::new(alloc);
    'each_handle: for h in 0..channel.made() {
        push_some(&mut list, receiver_value(alloc, channel, h)?)?;
    }
    Ok(list)
}

fn watch_value(alloc: Global, channel: &Watch<u64>) -> Result<Value, AllocError>
//~     ensures { IfOk result (λ value. view value ≡ watch_json channel.now.shown) }
{
    json!(in alloc; {
        "closed": channel.closed(),
        "kind": "watch",
        "made": channel.made(),
        "receivers": watcher_values(alloc, channel)?,
        "senders": watch_senders(alloc, channel)?,
        "value": channel.value(),
        "version": channel.version()
    })
}

//~ #[tactic(auto, using(crate::proofs::HandleLists::handle_lists))]
fn watch_senders(alloc: Global, channel: &Watch<u64>) -> Result<Vec<Value>, AllocError>
//~     ensures { IfOk result (λ list. map view list.items ≡ handles_json Kind.Sender channel.now.shown.slots (length channel.now.shown.slots)) }
{
    let mut list = Vec::new(alloc);
    'each_handle: for h in 0..channel.made() {
        push_some(&mut list, handle_value(Kind::Sender, h, channel.kind(h)))?;
    }
    Ok(list)
}

/// Returns a receiver of a watch, if it is alive.
fn watcher_value(alloc: Global, channel: &Watch<u64>, h: u32) -> Result<Option<Value>, AllocError>
//~     ensures { IfOk result (λ value. option_map view value ≡ option_map (watcher_json channel.now.shown h) (mark_at (slice_get channel.now.shown.slots h))) }
{
    let Some(mark) = channel.mark(h) else {
        return Ok(None);
    };
    let seen = channel.is_seen(h).unwrap();
    let value = json!(in alloc; {"handle": h, "mark": mark, "seen": seen})?;
    Ok(Some(value))
}

//~ #[tactic(auto, using(crate::proofs::HandleLists::handle_lists))]
fn watcher_values(alloc: Global, channel: &Watch<u64>) -> Result<Vec<Value>, AllocError>
//~     ensures { IfOk result (λ list. map view list.items ≡ watchers_json channel.now.shown (length channel.now.shown.slots)) }
{
    let mut list = Vec::new(alloc);
    'each_handle: for h in 0..channel.made() {
        push_some(&mut list, watcher_value(alloc, channel, h)?)?;
    }
    Ok(list)
}
