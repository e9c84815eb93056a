//! Gates driven by hand: each call is passed and made here, without a channel.

mod divergence;
mod futures;
mod outcome;
#[cfg(all(
    target_os = "linux",
    any(target_arch = "x86_64", target_arch = "aarch64"),
    not(miri)
))]
mod rest;
mod tasks;

use super::gate::Gate;
use super::plan::Plan;
use super::{ArrivingCall, helper};
use crate::channels::backend::Actor;
use crate::channels::lock::lock;
use crate::channels::turns::{OrderedChannel, Permit, TestEnd, Ticket, Turns};
use std::path::Path;
use std::sync::atomic::{AtomicUsize, Ordering};
use std::sync::{Arc, Barrier, Mutex, mpsc};
use std::task::{Context, Poll, Wake, Waker};
use std::thread;
use std::time::Duration;
use yovanelum_record::journal::Run;
use yovanelum_record::operation::Operation;
use yovanelum_record::sidecar::{Maker, Sidecar};

/// Longer than any test lasts.
const PATIENT: Duration = Duration::from_secs(600);

/// Three actors, of which the third has no name, on a broadcast and a watch.
const JOURNAL: &str = "ttd-journal 2
broadcast 4
watch 0
steps
1 0 0 send 0 0 = sent 1
2 1 0 recv 1 = value 0
3 0 1 modify 0 1 yes = told yes
4 2 0 send 0 1 = sent 1
5 1 0 try-recv 1 = value 1
6 0 0 drop 0 = dropped
end
";

const NAMES: &str = r#"{
    "version": 2,
    "actors": {"0": "clerk", "1": "audit", "2": "ThreadId(7)"},
    "channels": {"0": "orders"},
    "values": {"0": {"0": "order 71", "1": "order 72"}},
    "locations": [["src/shop.rs", 15, 9], ["src/audit.rs", 30, 5]],
    "calls": {"0": [0, 1, null, 1, null], "1": [0]},
    "made_by": {"0": ["the_test", 0], "1": ["the_test", 1]},
    "unnamed": [2],
    "failed": true
}"#;

fn plan_of(journal: &str, names: &str) -> Plan {
    let run = Run::read(journal.as_bytes()).unwrap();
    Plan::new(&run, Sidecar::read(names).unwrap())
}

fn gate_of(journal: &str, names: &str, patience: Duration) -> Arc<Gate> {
    let plan = plan_of(journal, names);
    let gate = Arc::new(Gate::new(Path::new("a/test.journal"), 1, plan, patience));
    helper::start(&gate).unwrap();
    gate
}

fn gate() -> Arc<Gate> {
    gate_of(JOURNAL, NAMES, PATIENT)
}

/// A gate that holds polls back as long as any thread runs, however late one goes on.
fn gate_that_holds() -> Arc<Gate> {
    let (path, plan) = (Path::new("a/test.journal"), plan_of(JOURNAL, NAMES));
    let mut gate = Gate::new(path, 1, plan, PATIENT);
    gate.hold = PATIENT;
    let gate = Arc::new(gate);
    helper::start(&gate).unwrap();
    gate
}

/// A gate without its helper: nothing looks after its futures but the test.
fn gate_without_helper(journal: &str, patience: Duration) -> Arc<Gate> {
    let plan = plan_of(journal, NAMES);
    Arc::new(Gate::new(Path::new("a/test.journal"), 1, plan, patience))
}

fn call(actor: usize, channel: u32, word: Operation, handle: u32) -> ArrivingCall {
    ArrivingCall {
        channel,
        handle,
        word,
        actor: Actor::of(actor),
        called_at: None,
    }
}

const CLERK: usize = 0;
const AUDIT: usize = 1;
const NOBODY: usize = 2;

/// A channel whose calls pass a gate.
fn ordered(gate: &Arc<Gate>) -> OrderedChannel {
    OrderedChannel::new(gate.clone(), 0)
}

/// Says that a call is made, if it was given the turn.
fn tell_made(permit: Option<Permit<'_>>, text: Option<&str>) {
    if let Some(permit) = permit {
        permit.made(text);
    }
}

fn make(gate: &Arc<Gate>, coming: ArrivingCall) {
    tell_made(ordered(gate).pass(coming, &|| false), None);
}

/// Makes the first calls of the journal.
fn make_first(gate: &Arc<Gate>, count: usize) {
    let calls = [
        call(CLERK, 0, Operation::Send, 0),
        call(AUDIT, 0, Operation::Recv, 1),
        call(CLERK, 1, Operation::Modify, 0),
        call(NOBODY, 0, Operation::Send, 0),
        call(AUDIT, 0, Operation::TryRecv, 1),
        call(CLERK, 0, Operation::Drop, 0),
    ];
    calls
        .into_iter()
        .take(count)
        .for_each(|coming| make(gate, coming));
}

/// Waits until this many threads are blocked before the gate, or all calls pass.
fn wait_for_blocked(gate: &Gate, count: u32) {
    let blocked = || {
        let state = gate.entrance.lock();
        let of_lanes = state.lanes.iter().map(|lane| lane.blocked);
        let of_actors = state.actors.iter().map(|actor| actor.blocked);
        of_lanes.chain(of_actors).sum::<u32>()
    };
    while blocked() < count && !gate.entrance.is_over() {
        thread::yield_now();
    }
}

/// Counts its wakes, and tells each with the name of the thread that wakes.
struct Told {
    wakes: AtomicUsize,
    by: Mutex<mpsc::Sender<String>>,
}

impl Wake for Told {
    fn wake(self: Arc<Self>) {
        self.wakes.fetch_add(1, Ordering::SeqCst);
        let by = thread::current().name().unwrap_or_default().to_string();
        let _ = lock(&self.by).send(by);
    }
}

fn told() -> (Arc<Told>, Waker, mpsc::Receiver<String>) {
    let (by, woken) = mpsc::channel();
    let told = Arc::new(Told {
        wakes: AtomicUsize::new(0),
        by: Mutex::new(by),
    });
    (told.clone(), Waker::from(told), woken)
}

fn poll(
    gate: &Arc<Gate>,
    coming: ArrivingCall,
    ticket: &mut Option<Ticket>,
    waker: &Waker,
) -> bool {
    match ordered(gate).poll(coming, &|| false, ticket, &Context::from_waker(waker)) {
        Poll::Ready(permit) => {
            tell_made(permit, None);
            true
        }
        Poll::Pending => false,
    }
}

#[test]
fn calls_in_the_order_of_the_journal_pass_at_once() {
    let gate = gate();
    make_first(&gate, 6);
    let replayed = gate.outcome();
    assert!(replayed.is_in_order() && gate.entrance.is_over());
    assert_eq!(replayed.to_string(), "all 6 calls in the recorded order");
    // What comes later passes.
    make(&gate, call(CLERK, 0, Operation::Send, 0));
    assert_eq!(gate.outcome(), replayed);
}

#[test]
fn a_thread_blocks_until_its_turn() {
    let gate = gate();
    let made = Mutex::new(vec![]);
    thread::scope(|scope| {
        let later = scope.spawn(|| {
            let channel = ordered(&gate);
            let permit = channel.pass(call(NOBODY, 0, Operation::Send, 0), &|| false);
            lock(&made).push(3);
            tell_made(permit, None);
        });
        wait_for_blocked(&gate, 1);
        make_first(&gate, 2);
        let channel = ordered(&gate);
        let permit = channel.pass(call(CLERK, 1, Operation::Modify, 0), &|| false);
        assert!(lock(&made).is_empty());
        lock(&made).push(2);
        tell_made(permit, None);
        later.join().unwrap();
    });
    assert_eq!(*lock(&made), [2, 3]);
    assert_eq!(gate.outcome().calls_in_order(), 4);
}

#[test]
fn a_permit_that_is_not_used_is_given_back() {
    let gate = gate();
    drop(ordered(&gate).pass(call(CLERK, 0, Operation::Send, 0), &|| false));
    assert_eq!(gate.outcome().calls_in_order(), 0);
    make_first(&gate, 6);
    assert!(gate.outcome().is_in_order());
}

/// Returns how many calls are in order where two callers of one lane make the same one.
fn calls_of_two_callers() -> usize {
    let gate = gate();
    make_first(&gate, 3);
    let channel = ordered(&gate);
    let permit = channel.pass(call(NOBODY, 0, Operation::Send, 0), &|| false);
    thread::scope(|scope| {
        let other = scope.spawn(|| make(&gate, call(NOBODY, 0, Operation::Send, 0)));
        wait_for_blocked(&gate, 1);
        tell_made(permit, None);
        make(&gate, call(AUDIT, 0, Operation::TryRecv, 1));
        make(&gate, call(CLERK, 0, Operation::Drop, 0));
        // The journal has one such call. The other one passes at its end.
        other.join().unwrap();
    });
    gate.outcome().calls_in_order()
}

#[test]
fn two_callers_of_one_lane_do_not_both_get_the_turn() {
    // The other one waits for a quarter of a second, in which this thread may not run under load.
    assert!((0..20).any(|_| calls_of_two_callers() == 6));
}

#[test]
fn a_closure_that_changes_a_watch_begins_before_its_own_calls() {
    let journal = "ttd-journal 2\nbroadcast 4\nwatch 0\nsteps\n\
        1 1 0 try-recv 1 = empty\n2 0 0 send 0 0 = sent 1\n3 0 1 modify 0 1 yes = told yes\nend\n";
    let gate = gate_of(journal, NAMES, PATIENT);
    let modify = call(CLERK, 1, Operation::Modify, 0);
    thread::scope(|scope| {
        let clerk = scope.spawn(|| {
            gate.pass_to_modify(modify);
            let begun_at = gate.outcome().calls_in_order();
            make(&gate, call(CLERK, 0, Operation::Send, 0));
            make(&gate, modify);
            begun_at
        });
        wait_for_blocked(&gate, 1);
        make(&gate, call(AUDIT, 0, Operation::TryRecv, 1));
        assert_eq!(clerk.join().unwrap(), 1);
    });
    assert!(gate.outcome().is_in_order());
}

#[test]
fn a_handle_is_dropped_by_whoever_has_it_last() {
    let gate = gate();
    make_first(&gate, 5);
    make(&gate, call(NOBODY, 0, Operation::Drop, 0));
    assert!(gate.outcome().is_in_order());
}

#[test]
fn callers_who_share_a_handle_without_a_name_are_not_told_apart() {
    let journal = "ttd-journal 2\nbroadcast 4\nsteps\n\
        1 2 0 send 0 0 = sent 1\n2 3 0 send 0 1 = sent 1\nend\n";
    let gate = gate_of(journal, NAMES, PATIENT);
    // Both threads live until both have called, so that they are two.
    let both = Barrier::new(2);
    thread::scope(|scope| {
        for _ in 0..2 {
            scope.spawn(|| {
                make(&gate, call(NOBODY, 0, Operation::Send, 0));
                both.wait();
            });
        }
    });
    let replayed = gate.outcome();
    assert!(!replayed.is_in_order());
    assert_eq!(
        replayed.to_string(),
        "all 2 calls in the recorded order; but several callers use handle 0 of `orders`, \
         and a replay can't tell them apart: give each a name of its own"
    );
}

#[test]
fn a_caller_without_a_name_waits_for_the_call_of_another_one() {
    let journal = "ttd-journal 2\nbroadcast 4\nsteps\n\
        1 2 0 send 0 0 = sent 1\n2 3 0 receiver-count 0 = count 1\nend\n";
    let gate = gate_of(journal, NAMES, PATIENT);
    thread::scope(|scope| {
        scope.spawn(|| make(&gate, call(NOBODY, 0, Operation::ReceiverCount, 0)));
        wait_for_blocked(&gate, 1);
        make(&gate, call(NOBODY, 0, Operation::Send, 0));
    });
    assert_eq!(gate.outcome().calls_in_order(), 2);
}

#[test]
fn a_value_with_another_text_is_told() {
    let gate = gate();
    let channel = ordered(&gate);
    let permit = channel.pass(call(CLERK, 0, Operation::Send, 0), &|| false);
    tell_made(permit, Some("order 71"));
    make(&gate, call(AUDIT, 0, Operation::Recv, 1));
    make(&gate, call(CLERK, 1, Operation::Modify, 0));
    let permit = channel.pass(call(NOBODY, 0, Operation::Send, 0), &|| false);
    tell_made(permit, Some("order 73"));
    make(&gate, call(AUDIT, 0, Operation::TryRecv, 1));
    make(&gate, call(CLERK, 0, Operation::Drop, 0));
    let replayed = gate.outcome();
    assert!(replayed.is_in_order());
    assert_eq!(
        replayed.to_string(),
        "all 6 calls in the recorded order; call 4 of 6 sent `order 73`, where it had sent `order 72`"
    );
}

#[test]
fn a_call_that_waits_has_a_mark() {
    let journal = "ttd-journal 2\nbroadcast 4\nwatch 0\nsteps\n\
        1 0 0 receiver-count 0 = count 1\n2 1 0 drop 1 = dropped\n\
        3 0 0 receiver-count 0 = count 0\n4 1 1 update 1 = value 0\nend\n";
    let names = r#"{"actors": {"0": "clerk", "1": "audit"}, "waited": {"0": [2], "1": [0]}}"#;
    let gate = gate_of(journal, names, PATIENT);
    make(&gate, call(CLERK, 0, Operation::ReceiverCount, 0));
    make(&gate, call(AUDIT, 0, Operation::Drop, 1));
    make(&gate, call(CLERK, 0, Operation::NoReceiver, 0));
    make(&gate, call(AUDIT, 1, Operation::WaitFor, 1));
    assert!(gate.outcome().is_in_order());
}

#[test]
fn channels_are_known_by_their_makers() {
    let gate = gate();
    let made = |name: Option<&str>, nth| {
        gate.channel_by(&Maker {
            name: name.map(Into::into),
            nth,
        })
    };
    assert_eq!(made(Some("the_test"), 1), Some(1));
    assert_eq!(made(Some("the_test"), 2), None);
    assert_eq!(made(None, 0), None);
}

#[test]
fn the_line_at_the_end_says_how_the_test_ended() {
    let gate = gate();
    make_first(&gate, 2);
    let at_end = |end| gate.outcome().at_end(end);
    let before = "ended before call 3 of 6: `modify 0` on channel 1 by `clerk` at src/shop.rs:15";
    assert_eq!(
        at_end(TestEnd::Failed(&[])),
        format!("{before}; the test failed")
    );
    assert_eq!(
        at_end(TestEnd::Passed),
        format!("{before}; the test passed")
    );
    make(&gate, call(CLERK, 1, Operation::Modify, 0));
    make(&gate, call(NOBODY, 0, Operation::Send, 0));
    make(&gate, call(AUDIT, 0, Operation::TryRecv, 1));
    make(&gate, call(CLERK, 0, Operation::Drop, 0));
    let all = "all 6 calls in the recorded order";
    assert_eq!(
        at_end(TestEnd::Failed(&[])),
        format!("{all}; the test failed")
    );
    assert_eq!(at_end(TestEnd::Unknown), all);
    assert_eq!(
        at_end(TestEnd::Passed),
        format!(
            "{all}; the order was replayed and the test passed: the failure isn't one of order alone"
        )
    );
}
