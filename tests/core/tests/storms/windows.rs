//! Windows of channels beside a plain list of all their calls.

use crate::seeds;
use proved::Global;
use proved::rw_law::Reversible;
use proved::rw_recording::{
    BCall, BReply, ChanCall, ChanReply, Cut, Flight, Kind, Recording, RunReader, Spec, TakeFault,
    WCall, WReply, Window, WindowFault,
};
use proved::rw_world::{Chan, open_channel};
use std::mem;
use support::Random;
use support::fixtures::{to_broadcast, to_watch};

/// How many calls of a channel are tried.
const CALLS: usize = 500;

/// A call that was made: its actor, its stamp, the call and its reply.
type Made = (u32, u64, ChanCall<u64>, ChanReply<u64>);

/// The calls before the handles were numbered anew, the numbers that those which were alive had then, and how many there were.
#[derive(Default)]
struct Past {
    all: Vec<Made>,
    numbers: Vec<u32>,
    made: u32,
}

/// A channel with its last calls, and the same channel with plain lists of the calls: those since its handles were numbered anew, and
/// those of before.
struct Played {
    flight: Flight,
    plain: Chan<u64>,
    past: Option<Past>,
    all: Vec<Made>,
    last: u64,
}

/// What the windows of a storm were.
#[derive(Default)]
struct Told {
    windows: u64,
    entries: u64,
    dropped: u64,
    dozing: u64,
    joined: u64,
}

fn any_call(random: &mut Random, is_watch: bool, handles: usize) -> ChanCall<u64> {
    let (kind, handle) = (random.any(), random.below(handles) as u32);
    let value = random.any() % 100;
    if is_watch {
        ChanCall::W(to_watch(kind, handle, value))
    } else if random.below(4) == 0 {
        ChanCall::B(BCall::Send(handle, value))
    } else {
        ChanCall::B(to_broadcast(kind, handle, value))
    }
}

/// Whether the handle can be used.
fn is_live(channel: &Chan<u64>, handle: u32) -> bool {
    match channel {
        Chan::Broadcast(machine) => machine.kind(handle).is_some(),
        Chan::Watch(machine) => machine.kind(handle).is_some(),
    }
}

fn make(channel: &mut Chan<u64>, call: &ChanCall<u64>) -> ChanReply<u64> {
    channel.ready(1).unwrap();
    channel.apply(call).0
}

impl Past {
    /// The number that a handle had, or would have had.
    fn number(&self, handle: u32) -> u32 {
        match self.numbers.get(handle as usize) {
            Some(number) => *number,
            None => self.made + handle - self.numbers.len() as u32,
        }
    }
}

impl Played {
    fn open(spec: Spec<u64>, chunk: usize) -> Played {
        Played {
            flight: Flight::open(Global, spec, chunk).unwrap(),
            plain: open_channel(Global, &spec).unwrap(),
            past: None,
            all: Vec::new(),
            last: 0,
        }
    }

    fn call(&mut self, random: &mut Random) {
        let is_watch = matches!(self.plain, Chan::Watch(_));
        let handles = self.plain.made() as usize + 1;
        let mut call = any_call(random, is_watch, handles);
        // Most calls are by live handles, as those of programs are. Handles are seldom dropped while there are few.
        while (!is_live(&self.plain, call.handle()) && random.below(200) != 0)
            || (is_drop(&call) && random.below(2) == 0)
        {
            call = any_call(random, is_watch, handles);
        }
        let (actor, clock) = (random.below(64) as u32, random.any() % 1_000);
        let reply = make(&mut self.plain, &call);
        match self.flight.call(actor, clock, call) {
            Ok(got) => {
                assert_eq!(got, reply);
                self.last = 1 + clock.max(self.last);
                self.all.push((actor, self.last, call, reply));
            }
            Err(fault) => {
                assert_eq!(fault, TakeFault::Waits);
                assert!(Chan::<u64>::waits(&reply));
            }
        }
    }

    fn renumber(&mut self) {
        let made = self.plain.made();
        let before = self.flight.renumber(Global).unwrap().unwrap();
        let plain = self.plain.renumber(Global).unwrap();
        assert!(before == plain);
        assert_eq!((self.flight.len(), self.flight.dropped()), (0, 0));
        self.past = Some(Past {
            all: mem::take(&mut self.all),
            numbers: before.to_vec(),
            made,
        });
    }

    /// Makes a window of the last calls, and compares it with them. Calls of before are kept until a later one isn't.
    fn window(&self, random: &mut Random, told: &mut Told) {
        let past = self.past.as_ref().filter(|_| self.flight.dropped() == 0);
        let then = |handle| past.map_or(handle, |past| past.number(handle));
        let earlier = past.map_or(&[][..], |past| &past.all);
        let later = self.all.iter().map(|made| earlier_form(made, then));
        let all: Vec<Made> = earlier.iter().copied().chain(later).collect();
        told.joined += u64::from(past.is_some());
        let mut kept = self.flight.kept(Global).unwrap();
        assert_eq!(kept.len() + kept.dropped(), all.len() as u64);
        let most = random.any() % 12;
        kept.settle(Global, most).unwrap();
        if random.below(3) == 0 {
            kept.skip(Global, random.any() % 20).unwrap();
        }
        let dropped = kept.dropped() as usize;
        let made = &all[dropped..];
        assert_eq!(kept.len(), made.len() as u64);
        assert_eq!(kept.first_stamp(), made.first().map(|made| made.1));
        let spec = self.flight.spec();
        let clock = random.any() % 10;
        let lead = kept.lead(Global, 63, clock).unwrap();
        let raised = lead.last_stamp();
        let length = lead.len();
        match lead.play(raised) {
            Ok(window) => {
                assert_eq!(window.lead(), length);
                told.windows += 1;
                told.entries += window.recording().len();
                told.dozing += window.dozing().len() as u64;
                compare(spec, &window, made, (clock, raised), most);
                compare_state(&window, &self.flight, self.plain.made(), then);
            }
            Err(fault) => {
                assert_eq!(fault, WindowFault::Dropped);
                told.dropped += 1;
            }
        }
    }
}

/// A call by the numbers that handles had before.
fn earlier_form(made: &Made, then: impl Fn(u32) -> u32) -> Made {
    let (actor, stamp, call, reply) = made;
    let reply = match reply {
        ChanReply::B(BReply::New(handle)) => ChanReply::B(BReply::New(then(*handle))),
        ChanReply::W(WReply::New(handle)) => ChanReply::W(WReply::New(then(*handle))),
        other => *other,
    };
    (*actor, *stamp, call.with_handle(then(call.handle())), reply)
}

fn is_drop(call: &ChanCall<u64>) -> bool {
    matches!(
        call,
        ChanCall::B(BCall::DropHandle(_)) | ChanCall::W(WCall::DropHandle(_))
    )
}

/// The reply with the number that a new handle has in the journal.
fn renamed(window: &Window, reply: ChanReply<u64>) -> ChanReply<u64> {
    match reply {
        ChanReply::B(BReply::New(handle)) => {
            ChanReply::B(BReply::New(window.number(handle).unwrap()))
        }
        ChanReply::W(WReply::New(handle)) => {
            ChanReply::W(WReply::New(window.number(handle).unwrap()))
        }
        other => other,
    }
}

/// Compares the text of a window's run with the calls.
fn compare(spec: Spec<u64>, window: &Window, made: &[Made], stamps: (u64, u64), most: u64) {
    let (clock, raised) = stamps;
    let mut cut = Cut::new(Global);
    cut.add(Global, window.recording(), u64::MAX).unwrap();
    let text = cut.text(Global).unwrap();
    let mut reader = RunReader::read(Global, &text).unwrap();
    let handles = made.iter().filter(|made| made.2.makes()).count();
    let bound = 2 * 8 + most + 3 + 2 * (handles as u64 + 600);
    assert!(window.lead() <= bound, "{spec:?} {}", window.lead());
    for place in 0..window.lead() {
        let entry = reader.next_call().unwrap();
        assert_eq!((entry.actor, entry.stamp), (63, clock + place + 1));
    }
    for (actor, stamp, call, reply) in made {
        let entry = reader.next_call().unwrap();
        let number = window.number(call.handle()).unwrap();
        assert_eq!((entry.actor, entry.stamp), (*actor, stamp + raised));
        assert_eq!(entry.call.call, call.with_handle(number));
        assert_eq!(entry.reply, renamed(window, *reply), "{spec:?} {call:?}");
    }
    assert!(reader.next_call().is_none());
}

/// Compares what the window shows at its end with the channel, whose handles the window knows by these numbers.
fn compare_state(window: &Window, flight: &Flight, handles: u32, then: impl Fn(u32) -> u32) {
    let recording: &Recording = window.recording();
    for kind in [Kind::Sender, Kind::Receiver, Kind::Weak] {
        assert_eq!(recording.alive(kind), flight.alive(kind));
    }
    assert_eq!(recording.queued(), flight.queued());
    let is_dozing = |handle| window.dozing().iter().any(|it| it.receiver == handle);
    for handle in 0..handles {
        let number = window.number(then(handle));
        assert!(number.is_some() || flight.position(handle).is_none());
        let Some(number) = number else { continue };
        assert_eq!(recording.is_seen(number), flight.is_seen(handle));
        if !is_dozing(then(handle)) {
            assert_eq!(recording.unread(number), flight.unread(handle));
            let before = |position| position + window.sent_before();
            let position = recording.position(number).map(before);
            assert_eq!(position, flight.position(handle));
        }
    }
}

/// Plays one channel, and makes windows of it at random places.
fn play(random: &mut Random, spec: Spec<u64>, told: &mut Told) {
    let chunk = 1 + random.below(60);
    let mut played = Played::open(spec, chunk);
    for _ in 0..CALLS {
        played.call(random);
        if random.below(8) == 0 {
            played.window(random, told);
        }
        if random.below(300) == 0 {
            played.renumber();
        }
    }
}

#[test]
fn windows_have_the_last_calls() {
    let mut told = Told::default();
    for seed in seeds() {
        let mut random = Random::new(seed);
        for capacity in 1..=8 {
            play(&mut random, Spec::Broadcast(capacity), &mut told);
        }
        for value in 0..4 {
            play(&mut random, Spec::Watch(value), &mut told);
        }
    }
    assert!(told.joined > 0);
    println!(
        "{} windows, {} entries, {} with calls by handles dropped before, {} dozing, {} of before a renumbering",
        told.windows, told.entries, told.dropped, told.dozing, told.joined
    );
}

/// Makes the calls of a recording anew, and compares what they leave.
fn go_on(random: &mut Random, spec: Spec<u64>) {
    let mut recording = Recording::open(Global, spec).unwrap();
    let mut plain = open_channel(Global, &spec).unwrap();
    let mut stamps = Vec::new();
    for _ in 0..200 {
        let handles = plain.made() as usize + 1;
        let call = any_call(random, matches!(spec, Spec::Watch(_)), handles);
        let (actor, clock) = (random.below(64) as u32, random.any() % 1_000);
        if recording.call(actor, clock, call).is_ok() {
            make(&mut plain, &call);
            stamps.push(1 + clock.max(stamps.last().copied().unwrap_or(0)));
        }
    }
    let chunk = 1 + random.below(60);
    let flight = Flight::of(Global, &recording, chunk).unwrap();
    assert_eq!(flight.spec(), spec);
    assert_eq!(flight.len() + flight.dropped(), recording.len());
    assert_eq!(flight.made(), plain.made());
    for kind in [Kind::Sender, Kind::Receiver, Kind::Weak] {
        assert_eq!(flight.alive(kind), recording.alive(kind));
    }
    for handle in 0..flight.made() {
        assert_eq!(flight.position(handle), recording.position(handle));
        assert_eq!(flight.unread(handle), recording.unread(handle));
        assert_eq!(flight.is_seen(handle), recording.is_seen(handle));
    }
    let kept = flight.kept(Global).unwrap();
    let first = stamps.get(flight.dropped() as usize).copied();
    assert_eq!(kept.first_stamp(), first);
    assert_eq!(
        (kept.len(), kept.dropped()),
        (flight.len(), flight.dropped())
    );
}

#[test]
fn flights_go_on_from_recordings() {
    for seed in seeds() {
        let mut random = Random::new(seed);
        for capacity in 1..=8 {
            go_on(&mut random, Spec::Broadcast(capacity));
        }
        go_on(&mut random, Spec::Watch(3));
    }
}
