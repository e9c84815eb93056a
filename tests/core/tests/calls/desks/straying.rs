//! Desks that aren't closed, since receipts and entries don't belong together.
//!
//! Each desk of a test has two broadcast channels and two actors. Tables say what is called, and with whose passes each desk closes.

use proved::rw_broadcast::BCall;
use proved::rw_desk::{CloseFault, Desk, Pass};
use proved::rw_world::{ChanCall, Spec};
use proved::{Global, RT};
use std::mem;

const SEND: ChanCall<u64> = ChanCall::B(BCall::Send(0, 4));

const TRY_RECV: ChanCall<u64> = ChanCall::B(BCall::TryRecv(1));

/// Desks, and the passes that were opened with each: under the same numbers.
struct Desks {
    open: Vec<Option<Desk<u64>>>,
    passes: Vec<proved::Vec<Pass<u64>>>,
}

/// A call at a desk, on this channel of it, by this actor's pass of a desk.
struct Made {
    at: usize,
    channel: u32,
    of: usize,
    actor: usize,
    call: ChanCall<u64>,
}

/// What was shown: the clock of the pass after each call, and of each close how long the run is.
struct Shown {
    clocks: Vec<u64>,
    closes: Vec<Result<u64, CloseFault>>,
}

impl Desks {
    /// No desk.
    fn none() -> Desks {
        Desks {
            open: Vec::new(),
            passes: Vec::new(),
        }
    }

    /// Opens one more desk.
    fn open_one(&mut self) {
        let (desk, passes, _ends) = Desk::open(Global, &[Spec::Broadcast(2); 2], 2).unwrap();
        self.open.push(Some(desk));
        self.passes.push(passes);
    }

    /// Makes a call. The clock of the pass after it.
    fn call(&mut self, made: &Made) -> u64 {
        let desk = self.open.get(made.at).expect("no such desk");
        let desk = desk.as_ref().expect("a desk that is closed");
        let passes = self.passes.get_mut(made.of).expect("no such passes");
        let pass = passes.get_mut(made.actor).expect("no such pass");
        desk.call(&RT, pass, made.channel, made.call).unwrap();
        pass.stamp()
    }

    /// Closes a desk with the passes of the same desk or of another. Where it isn't closed, both come back.
    fn close(&mut self, at: usize, of: usize) -> Result<u64, CloseFault> {
        let slot = self.open.get_mut(at).expect("no such desk");
        let passes = self.passes.get_mut(of).expect("no such passes");
        let desk = slot.take().expect("a desk that is closed");
        match desk.close(Global, mem::replace(passes, proved::Vec::new(Global))) {
            Ok(run) => Ok(run.len()),
            Err((fault, desk, back)) => {
                *slot = Some(desk);
                *passes = back;
                Err(fault)
            }
        }
    }

    /// Makes calls.
    fn call_all(&mut self, calls: &[Made]) -> Vec<u64> {
        calls.iter().map(|made| self.call(made)).collect()
    }

    /// Closes desks, each with the passes of a desk.
    fn close_all(&mut self, closes: &[(usize, usize)]) -> Vec<Result<u64, CloseFault>> {
        closes.iter().map(|(at, of)| self.close(*at, *of)).collect()
    }

    /// Opens three desks.
    fn open_all(&mut self) {
        for _ in 0..3 {
            self.open_one();
        }
    }
}

/// Opens three desks, makes calls, and then closes desks.
fn played(calls: &[Made], closes: &[(usize, usize)]) -> Shown {
    let mut desks = Desks::none();
    desks.open_all();
    let clocks = desks.call_all(calls);
    let closes = desks.close_all(closes);
    Shown { clocks, closes }
}

/// A call on a channel of the first of two desks, by an actor's pass of the second.
fn made([at, of]: [usize; 2], channel: u32, actor: usize, call: ChanCall<u64>) -> Made {
    Made {
        at,
        channel,
        of,
        actor,
        call,
    }
}

/// The call of an actor of desk 0 by the pass of desk 0.
fn own(channel: u32, actor: usize, call: ChanCall<u64>) -> Made {
    made([0, 0], channel, actor, call)
}

#[test]
fn passes_of_another_desk() {
    // Both desks reply to the same two calls alike, and then the other's second actor makes one more.
    let other = |actor, call| made([1, 1], 0, actor, call);
    let calls = [
        own(0, 0, SEND),
        own(0, 1, TRY_RECV),
        other(0, SEND),
        other(1, TRY_RECV),
        other(1, TRY_RECV),
    ];
    // With the third desk's passes, which have no receipt, both actors stray, and the least of them is reported.
    let closes = [(0, 1), (1, 0), (0, 2), (0, 0), (1, 1)];
    let shown = played(&calls, &closes);
    let wanted = [
        Err(CloseFault::Strayed(1, 1)),
        Err(CloseFault::Strayed(1, 1)),
        Err(CloseFault::Strayed(0, 0)),
        Ok(2),
        Ok(3),
    ];
    assert_eq!(shown.closes, wanted);
}

#[test]
fn a_pass_at_two_desks() {
    let elsewhere = made([1, 0], 0, 1, SEND);
    let calls = [own(0, 1, SEND), own(1, 1, SEND), elsewhere];
    // The one desk lacks an entry for a receipt, and the other one a receipt for its entry.
    let shown = played(&calls, &[(0, 0), (1, 1)]);
    let wanted = [
        Err(CloseFault::Strayed(1, 2)),
        Err(CloseFault::Strayed(1, 0)),
    ];
    assert_eq!(shown.closes, wanted);
}

#[test]
fn entries_out_of_order() {
    // The guest's call has a stamp on one channel that its actor has on the other one already.
    let by_guest = made([0, 1], 1, 1, SEND);
    // By the receipts alone the first actor strays, at its second one. The order of the entries is looked at before.
    let elsewhere = made([1, 0], 0, 0, SEND);
    let calls = [
        own(0, 1, SEND),
        own(1, 0, SEND),
        own(0, 1, SEND),
        by_guest,
        elsewhere,
    ];
    // It doesn't close with any passes.
    let shown = played(&calls, &[(0, 0), (0, 0)]);
    let strayed = Err(CloseFault::Strayed(1, 1));
    assert_eq!(shown.clocks, [1, 1, 2, 2, 2]);
    assert_eq!(shown.closes, [strayed, strayed]);
}
