//! Tables, rings and channels: opened, made ready, and called.

use crate::met::{made, say, tried};
use crate::readings::Shows;
use proved::Global;
use proved::rw_broadcast::{BCall, Broadcast};
use proved::rw_handles::{Kind, Table};
use proved::rw_law::NoMemory;
use proved::rw_ring::Ring;
use proved::rw_watch::{WCall, Watch};
use std::fmt::Debug;

/// For how many calls a machine is made ready at once.
const AHEAD: u64 = 3;

/// A weight that no machine reaches here.
pub const MUCH: u64 = 1_000;

/// Makes a machine ready for a few calls.
fn make_ready<M: Shows>(machine: &mut M) -> Result<(), NoMemory> {
    if machine.weight() > MUCH {
        return Err(NoMemory);
    }
    tried(
        machine,
        |machine| machine.readings(),
        |machine| machine.ready(AHEAD),
    )
}

/// Makes a call on a machine, which is made ready before.
fn make<M: Shows>(machine: &mut M, call: &M::Call) -> Result<M::Reply, NoMemory> {
    make_ready(machine)?;
    if machine.weight() >= machine.limit() {
        return Err(NoMemory);
    }
    let (reply, _) = machine.apply(call);
    Ok(reply)
}

/// Makes calls, and says the reply of each.
fn make_all<M: Shows>(machine: &mut M, calls: &[M::Call])
where
    M::Reply: Debug,
{
    for call in calls {
        say!("  {:?}", make(machine, call));
    }
}

/// A machine, as it is opened.
fn new_machine<M: Shows>() -> Result<M, NoMemory> {
    made(M::open)
}

/// Opens a machine, and makes calls on it.
pub fn play_machine<M: Shows>(calls: &[M::Call])
where
    M::Reply: Debug,
{
    let Ok(mut machine) = new_machine::<M>() else {
        return say!("  isn't opened");
    };
    make_all(&mut machine, calls);
}

/// A table of handles.
fn new_table() -> Result<Table<u64>, NoMemory> {
    made(|| Table::new(Global))
}

/// A table of a sender and a receiver.
fn table_of_two() -> Result<Table<u64>, NoMemory> {
    made(|| Table::of_two(Global, 3, 4))
}

/// A ring of this capacity.
fn new_ring() -> Result<Ring<u64>, NoMemory> {
    made(|| Ring::new(Global, 4))
}

/// Makes room in a table for `handles` handles.
fn ready_table(table: &mut Table<u64>, handles: u64) -> Result<(), NoMemory> {
    if u64::from(table.made()) > MUCH || handles > MUCH {
        return Err(NoMemory);
    }
    tried(table, |table| table.made(), |table| table.ready(handles))
}

/// Makes a handle where a table has room for it, and says its number.
fn make_handle(table: &mut Table<u64>) {
    if table.room() == 0 || table.made() >= 10 {
        return;
    }
    say!("  {:?}", table.make(Kind::Receiver, 5))
}

/// Makes room in a table for `handles` handles, and says how many it has made.
fn say_ready(table: &mut Table<u64>, handles: u64) {
    let readied = ready_table(table, handles);
    say!("a table for {handles}: {readied:?}, made {}", table.made())
}

/// Makes room in a table for more and more handles, and makes one each time.
fn fill_table(table: &mut Table<u64>) {
    for handles in [4, 40] {
        say_ready(table, handles);
        make_handle(table);
    }
}

/// Plays a table.
fn play_table() {
    let Ok(mut table) = new_table() else {
        return say!("no table");
    };
    fill_table(&mut table);
    drop(table);
}

/// How many handles a table of two made.
fn made_by_two() -> Result<u32, NoMemory> {
    Ok(table_of_two()?.made())
}

/// The capacity of a ring.
fn capacity_of_ring() -> Result<u64, NoMemory> {
    Ok(new_ring()?.capacity())
}

/// Plays a table of two.
fn play_two() {
    match made_by_two() {
        Ok(made) => say!("a table of two: made {made}"),
        Err(NoMemory) => say!("no table of two"),
    }
}

/// Plays a ring.
fn play_ring() {
    match capacity_of_ring() {
        Ok(capacity) => say!("a ring of {capacity}"),
        Err(NoMemory) => say!("no ring"),
    }
}

/// What is called on a broadcast.
static ON_BROADCAST: [BCall<u64>; 8] = [
    BCall::Send(0, 1),
    BCall::Subscribe(0),
    BCall::CloneSender(0),
    BCall::Send(2, 2),
    BCall::Send(3, 3),
    BCall::TryRecv(1),
    BCall::TryRecv(1),
    BCall::Downgrade(0),
];

/// Plays a broadcast.
fn play_broadcast() {
    say!("a broadcast");
    play_machine::<Broadcast<u64>>(&ON_BROADCAST)
}

/// What is called on a watch.
static ON_WATCH: [WCall<u64>; 6] = [
    WCall::Send(0, 8),
    WCall::Update(1),
    WCall::Subscribe(0),
    WCall::CloneReceiver(1),
    WCall::SendReplace(0, 9),
    WCall::HasChanged(2),
];

/// Plays a watch.
fn play_watch() {
    say!("a watch");
    play_machine::<Watch<u64>>(&ON_WATCH)
}

/// Plays all of these.
pub fn play() {
    play_table();
    play_two();
    play_ring();
    play_broadcast();
    play_watch()
}
