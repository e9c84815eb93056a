//! Scripts that a thread for each actor plays. In the tables `/` stands for a line's end.

use crate::flags::is_set_in_time;
use proved::rw_journal::Run;
use proved::rw_law::{Entry, Payload, Reversible};
use proved::rw_script::{Gate, Script, run_threads};
use proved::rw_words::write_entry;
use proved::rw_world::World;
use proved::{Global, RT};
use std::sync::atomic::{AtomicBool, Ordering};

/// Holds actor 0's call 0 until actor 1's call 1 was made. Actor 1 goes on behind its call 0 only once actor 0 has reached that
/// call, and behind its call 1 only once actor 0 has reached its call 1.
struct Held {
    reached: AtomicBool,
    made: AtomicBool,
    next_reached: AtomicBool,
    limit_met: AtomicBool,
}

impl Held {
    fn new() -> Held {
        Held {
            reached: AtomicBool::new(false),
            made: AtomicBool::new(false),
            next_reached: AtomicBool::new(false),
            limit_met: AtomicBool::new(false),
        }
    }

    /// Waits for a flag, and notes where the limit was met.
    fn hold(&self, flag: &AtomicBool) {
        if !is_set_in_time(flag) {
            self.limit_met.store(true, Ordering::SeqCst);
        }
    }
}

impl Gate for Held {
    fn before(&self, actor: u32, i: u64) {
        match (actor, i) {
            (0, 0) => {
                self.reached.store(true, Ordering::SeqCst);
                self.hold(&self.made);
            }
            (0, 1) => self.next_reached.store(true, Ordering::SeqCst),
            _ => {}
        }
    }

    fn after(&self, actor: u32, i: u64) {
        match (actor, i) {
            // If actor 0's call 0 is made before its `before`, actor 1's call 1 comes second.
            (1, 0) => self.hold(&self.reached),
            (1, 1) => {
                self.made.store(true, Ordering::SeqCst);
                // Actor 0's call 0 is made meanwhile. If actor 1's call 1 isn't made yet, it comes second.
                self.hold(&self.next_reached);
            }
            _ => {}
        }
    }
}

/// Holds the calls 0 of the actors 0 and 1 until both threads have reached them.
struct Meeting {
    first: AtomicBool,
    second: AtomicBool,
    limit_met: AtomicBool,
}

impl Meeting {
    fn new() -> Meeting {
        Meeting {
            first: AtomicBool::new(false),
            second: AtomicBool::new(false),
            limit_met: AtomicBool::new(false),
        }
    }

    /// Whether both threads were there, and neither met the limit.
    fn was_held(&self) -> bool {
        let were_there = self.first.load(Ordering::SeqCst) && self.second.load(Ordering::SeqCst);
        were_there && !self.limit_met.load(Ordering::SeqCst)
    }
}

impl Gate for Meeting {
    fn before(&self, actor: u32, i: u64) {
        let (own, other) = match (actor, i) {
            (0, 0) => (&self.first, &self.second),
            (1, 0) => (&self.second, &self.first),
            _ => return,
        };
        own.store(true, Ordering::SeqCst);
        if !is_set_in_time(other) {
            self.limit_met.store(true, Ordering::SeqCst);
        }
    }

    fn after(&self, _actor: u32, _i: u64) {}
}

/// The bytes of a script.
fn script_of(text: &str) -> Vec<u8> {
    let mut script = Vec::new();
    for byte in text.bytes() {
        script.push(if byte == b'/' { b'\n' } else { byte });
    }
    script
}

/// An entry's line with `/` behind it.
fn push_line<V: Payload>(text: &mut Vec<u8>, entry: &Entry<World<V>>) {
    if World::<V>::waits(&entry.reply) || World::<V>::strays(&entry.reply) {
        text.extend_from_slice(b"not recorded/");
        return;
    }
    let mut out = [0u8; 256];
    let length = write_entry(entry, &mut out);
    text.extend_from_slice(&out[..length]);
    text.push(b'/');
}

/// The run that the threads of a script make.
fn play_on_threads<G: Gate + Sync>(script: &[u8], gate: &G) -> Run<u64> {
    run_threads(&RT, Global, &Script::read(Global, script).unwrap(), gate).unwrap()
}

/// The entries of a run.
fn entries_of<V: Copy>(run: &Run<V>) -> &[Entry<World<V>>] {
    run.entries()
}

/// The entries of a run, as their lines with `/` behind each.
fn lines_of<V: Payload>(run: &Run<V>) -> Vec<u8> {
    let mut text = Vec::new();
    for entry in entries_of(run) {
        push_line(&mut text, entry);
    }
    text
}

/// The entries of the run that a script's threads make, as their lines with `/` behind each.
fn played<G: Gate + Sync>(script: &str, gate: &G) -> Vec<u8> {
    let script = script_of(script);
    let run = play_on_threads(&script, gate);

    lines_of(&run)
}

/// The script's threads make these entries, whatever the gate holds.
fn plays_to<G: Gate + Sync>(script: &str, gate: &G, want: &str) {
    let text = played(script, gate);
    assert_eq!(text.as_slice(), want.as_bytes());
}

/// Two actors, each on a channel of its own.
const APART: &str = "broadcast 2/watch 5/actors 2/0 0 send 0 1/1 1 send 0 6";

/// Their run in every schedule.
const APART_RUN: &str = "1 0 0 send 0 1 = sent 1/1 1 1 send 0 6 = stored/";

#[test]
fn threads_on_two_channels() {
    plays_to(APART, &(), APART_RUN);
    let meeting = Meeting::new();
    plays_to(APART, &meeting, APART_RUN);
    assert!(meeting.was_held());
}

/// Three sends on one channel, the last by the other actor, which first makes a call on another channel.
const TOGETHER: &str =
    "broadcast 4/watch 5/actors 2/0 0 send 0 1/0 0 send 0 2/1 1 borrow 0/1 0 send 0 3";

/// Their run where actor 1's calls were made before those of actor 0.
const TOGETHER_RUN: &str = "1 1 1 borrow 0 = value 5/2 1 0 send 0 3 = sent 1/3 0 0 send 0 1 = sent 1/4 0 0 send 0 2 = sent 1/";

#[test]
fn gate_orders_the_calls_of_two_threads() {
    let held = Held::new();
    plays_to(TOGETHER, &held, TOGETHER_RUN);
    // Actor 0 was held until actor 1's call 1 was made, and actor 1 until actor 0 had reached its call 0, and then its call 1.
    assert!(held.reached.load(Ordering::SeqCst));
    assert!(held.made.load(Ordering::SeqCst));
    assert!(held.next_reached.load(Ordering::SeqCst));
    assert!(!held.limit_met.load(Ordering::SeqCst));
}

/// Scripts with the same run in every schedule, and these runs.
static WAITING: [(&str, &str); 3] = [
    // No call.
    ("watch 1", ""),
    // A call waits for one of another thread, whichever comes first.
    (
        "broadcast 2/actors 2/0 0 recv 1/1 0 send 0 5",
        "1 1 0 send 0 5 = sent 1/2 0 0 recv 1 = value 5/",
    ),
    // Names of two actors: each names the handle that its own line made.
    (
        "broadcast 4/watch 3/actors 2/0 0 subscribe 0 as a/1 1 clone-receiver 1 as b/0 0 send 0 7/0 0 try-recv a/1 1 drop b",
        "1 0 0 subscribe 0 = new 2/1 1 1 clone-receiver 1 = new 2/2 0 0 send 0 7 = sent 2/2 1 1 drop 2 = dropped/3 0 0 try-recv 2 = value 7/",
    ),
];

#[test]
fn threads_wait_and_use_names() {
    for (script, want) in &WAITING {
        plays_to(script, &(), want);
    }
}

/// A call of each of eight actors, on eight channels.
const OF_EIGHT: &str = "watch 0/watch 1/watch 2/watch 3/watch 4/watch 5/watch 6/watch 7/actors 8/0 0 borrow 0/1 1 borrow 0/2 2 borrow 0/3 3 borrow 0/4 4 borrow 0/5 5 borrow 0/6 6 borrow 0/7 7 borrow 0";

/// Their run in every schedule.
const RUN_OF_EIGHT: &str = "1 0 0 borrow 0 = value 0/1 1 1 borrow 0 = value 1/1 2 2 borrow 0 = value 2/1 3 3 borrow 0 = value 3/1 4 4 borrow 0 = value 4/1 5 5 borrow 0 = value 5/1 6 6 borrow 0 = value 6/1 7 7 borrow 0 = value 7/";

/// Each thread of a script waits until all of them are started. The first of eight mostly sleeps by then, so one of these plays would not
/// end if those that sleep weren't woken.
#[test]
fn eight_threads_begin() {
    for _ in 0..50 {
        plays_to(OF_EIGHT, &(), RUN_OF_EIGHT);
    }
}
