//! The storm of a desk with passes: a thread for each actor, which plays or waits, on the channels of one desk, which is then closed.
//!
//! Each actor's receipts have to be its entries in the run. Each actor that waited for values of a broadcast has to have received or
//! missed as many as were sent. `channels.rs` says who acts on which channel, and `generator.rs` chooses the players' calls.

use crate::channels::{
    FIRST_DROPS, OWN_HANDLES, PLAYERS, SECOND_HANDLES, SHARED_DROP, SPECS, WAITERS, own_drops,
};
use crate::generator::Generator;
use crate::making::Opened;
use crate::receipts::{Receipts, assert_agree};
use crate::seeds;
use crate::waiting::{wait_for_end, were_told};
use proved::Global;
use proved::rw_desk::{Desk, DeskFault, Pass};
use proved::rw_world::ChanCall;
use std::thread;
use support::in_time;

/// How many calls are made for a seed.
const CALLS: u64 = 16_000;

/// Makes these calls without waiting, and continues after a fault. Returns whether all were made.
fn make_all(desk: &Opened, pass: &mut Pass<u64>, calls: &[(u32, ChanCall<u64>)]) -> bool {
    let mut all = true;
    for (channel, call) in calls {
        all &= desk.make(pass, *channel, *call, false).is_ok();
    }
    all
}

/// Makes the handles that waiters and players need, and drops those that would keep a channel open.
fn prepare(desk: &Opened, pass: &mut Pass<u64>) {
    assert!(make_all(desk, pass, &SECOND_HANDLES));
    for _ in 0..PLAYERS {
        assert!(make_all(desk, pass, &OWN_HANDLES));
    }
    assert!(make_all(desk, pass, &FIRST_DROPS));
}

/// Makes a player's calls. One that would wait isn't made.
fn make_calls(
    desk: &Opened,
    pass: &mut Pass<u64>,
    generator: &mut Generator,
    calls: u64,
) -> Result<(), DeskFault> {
    for _ in 0..calls {
        let choice = generator.choose();
        match desk.make(pass, choice.channel, choice.call, choice.waits) {
            Ok(reply) => generator.hear(choice.channel, &reply),
            Err(DeskFault::Waits) => {}
            Err(fault) => return Err(fault),
        }
    }
    Ok(())
}

/// Makes a player's calls, and then drops its handles, even after a fault, or others would wait for ever.
fn play(desk: &Opened, pass: &mut Pass<u64>, player: u32, seed: u64) -> Option<u64> {
    let mut generator = Generator::new(seed, player);
    let made = make_calls(desk, pass, &mut generator, CALLS / u64::from(PLAYERS));
    let shares = player != 0 || make_all(desk, pass, &SHARED_DROP);
    let drops = make_all(desk, pass, &own_drops(player));
    (drops && shares && made.is_ok()).then_some(0)
}

/// Runs an actor's thread, which plays or waits. Returns its pass, and how many values it was notified of, or `None` if not all
/// its calls were made.
fn act(desk: &Opened, mut pass: Pass<u64>, seed: u64) -> (Pass<u64>, Option<u64>) {
    let actor = pass.actor();
    let told = match actor.checked_sub(PLAYERS) {
        None => play(desk, &mut pass, actor, seed),
        Some(waiter) => wait_for_end(desk, &mut pass, waiter),
    };
    (pass, told)
}

/// Runs each actor in its own thread. Returns the passes, and how many values each actor was notified of.
fn act_all(
    desk: &Opened,
    passes: proved::Vec<Pass<u64>>,
    seed: u64,
) -> (Vec<Pass<u64>>, Vec<Option<u64>>) {
    thread::scope(|scope| {
        let start = |pass| scope.spawn(move || act(desk, pass, seed));
        let threads: Vec<_> = passes.into_iter().map(start).collect();
        threads
            .into_iter()
            .map(|thread| thread.join().unwrap())
            .unzip()
    })
}

/// Makes many calls, chosen from a seed, closes the desk and compares its run with what the actors know.
fn play_seed(seed: u64) {
    let (desk, mut passes, ends) = Desk::open(Global, &SPECS, PLAYERS + WAITERS).unwrap();
    let desk = Opened { desk, ends };
    prepare(&desk, &mut passes[0]);
    let (passes, told) = act_all(&desk, passes, seed);
    let receipts = passes
        .iter()
        .map(|pass| Receipts::of(pass.actor(), pass.kept()));
    let receipts: Vec<_> = receipts.collect();
    let Ok(run) = desk.desk.close(Global, passes.into_iter().collect()) else {
        panic!("seed {seed}: the desk does not close");
    };
    assert_agree(seed, &run, &receipts);
    assert!(
        were_told(&run, &told),
        "seed {seed}: a call was not made, or a value was missed"
    );
}

#[test]
fn receipts_of_many_threads_are_the_entries() {
    for seed in seeds() {
        in_time(move || play_seed(seed));
    }
}
