//! Whom the steps of recorded channels wake, beside what the patches of bare ones say: for each
//! call of the table, in random scripts.

use yovanelum_core::shim::alloc::Global;
use yovanelum_core::source::rw_broadcast::Broadcast;
use yovanelum_core::source::rw_law::Reversible;
use yovanelum_core::source::rw_recording::{
    BCall as B, ChanCall, Flight, Recording, Spec, WCall as W,
};
use yovanelum_core::source::rw_steps::{self, Records, Reply, Told, Waiters, step};
use yovanelum_core::source::rw_waiting::{WaitFor, told_on_broadcast, told_on_watch};
use yovanelum_core::source::rw_watch::Watch;
use yovanelum_record::calls::with_calls;

/// What calls are made with.
struct GivenStep {
    random: u64,
    // How many handles the channels have made.
    made: u32,
}

impl GivenStep {
    fn below(&mut self, count: usize) -> usize {
        self.random ^= self.random >> 12;
        self.random ^= self.random << 25;
        self.random ^= self.random >> 27;
        (self.random.wrapping_mul(0x2545_F491_4F6C_DD1D) >> 33) as usize % count
    }
}

trait Take {
    fn take(given: &mut GivenStep) -> Self;
}

/// A handle that was made, or one that wasn't.
impl Take for u32 {
    fn take(given: &mut GivenStep) -> u32 {
        given.below(given.made as usize + 1) as u32
    }
}

/// A value.
impl Take for u64 {
    fn take(given: &mut GivenStep) -> u64 {
        given.below(1000) as u64
    }
}

/// Whether a change of a watch notifies its receivers.
impl Take for bool {
    fn take(given: &mut GivenStep) -> bool {
        given.below(2) == 1
    }
}

macro_rules! makers {
    ($($word:ident $text:literal $method:literal $done:literal $(makes $kind:ident)? [$($set:ident)*]
        $($name:ident($($arg:ident: $type:ty),*) = $side:ident $variant:ident $args:tt)*
        $(=> $like:ident)?;)*) => {
        /// Each call of the table: its name, and what makes it.
        const MAKERS: &[(&str, fn(&mut GivenStep) -> ChanCall<u64>)] = &[
            $($((stringify!($name), |given| {
                $(let $arg = <$type>::take(given);)*
                ChanCall::$side($side::$variant $args)
            }),)*)*
        ];
    };
}

with_calls!(makers);

/// Those who wait: one call for each thing, which is woken by the name of it.
fn one_of_each() -> Waiters<WaitFor> {
    let mut waiters = Waiters::new();
    for what in [WaitFor::Value, WaitFor::NoReceiver] {
        assert_eq!(waiters.begin(Global, what, what), Ok(0));
    }
    waiters
}

/// Makes a call as a step, and returns its reply and whom it wakes.
fn woken(channel: &mut impl Records, call: ChanCall<u64>) -> (Reply, Option<WaitFor>) {
    let mut waiters = one_of_each();
    let (reply, told) = match call {
        ChanCall::B(B::DropHandle(_)) | ChanCall::W(W::DropHandle(_)) => step(channel, 0, 0, call),
        _ => {
            let reply = rw_steps::call(channel, 0, 0, call);
            (reply, Told::by_reply(reply))
        }
    };
    let says_wakes = waiters.wakes_after(reply);
    let woken: Vec<WaitFor> = waiters.wake(Global, told).into_values().collect();
    assert!(reply == Reply::Dropped || says_wakes != woken.is_empty());
    for what in [WaitFor::Value, WaitFor::NoReceiver] {
        assert_eq!(waiters.waker(what, 0).is_some(), !woken.contains(&what));
    }
    assert!(woken.len() < 2, "{woken:?}");
    (reply, woken.first().copied())
}

/// Makes a call on a bare channel of its kind, and returns whom its patch says that it tells.
fn told(
    (broadcast, watch): (&mut Broadcast<u64>, &mut Watch<u64>),
    call: ChanCall<u64>,
) -> (bool, Option<WaitFor>) {
    match call {
        ChanCall::B(call) => {
            broadcast.ready(1).unwrap();
            let (reply, patch) = broadcast.apply(&call);
            (reply.refuses(), told_on_broadcast(broadcast, &patch))
        }
        ChanCall::W(call) => {
            watch.ready(1).unwrap();
            let (reply, patch) = watch.apply(&call);
            (reply.refuses(), told_on_watch(watch, &patch))
        }
    }
}

/// The recorded channels of one kind: with all calls, with none, and with the last ones.
struct RecordedStep(Recording, Recording, Flight);

impl RecordedStep {
    fn open(spec: Spec<u64>) -> RecordedStep {
        RecordedStep(
            Recording::open(Global, spec).unwrap(),
            Recording::open_unrecorded(Global, spec).unwrap(),
            Flight::open(Global, spec, 4).unwrap(),
        )
    }

    fn woken(&mut self, call: ChanCall<u64>) -> Option<WaitFor> {
        let (reply, who) = woken(&mut self.0, call);
        assert_eq!(woken(&mut self.1, call), (reply, who));
        assert_eq!(woken(&mut self.2, call), (reply, who));
        who
    }
}

#[test]
fn a_step_wakes_those_whom_the_patch_of_its_call_tells() {
    // How often each call was made and not refused, and how often whom it told.
    let mut counts = vec![(0, [0; 3]); MAKERS.len()];
    for seed in 1..=500_u64 {
        let random = seed.wrapping_mul(0x9E37_79B9_7F4A_7C15) | 1;
        let mut given = GivenStep { random, made: 2 };
        let mut broadcast = Broadcast::open(Global, 2).unwrap();
        let mut watch = Watch::open(Global, 0).unwrap();
        let mut recorded = [Spec::Broadcast(2), Spec::Watch(0)].map(RecordedStep::open);
        for _ in 0..60 {
            let number = given.below(MAKERS.len());
            let (name, make) = MAKERS[number];
            let call = make(&mut given);
            let (refused, core) = told((&mut broadcast, &mut watch), call);
            let kind = usize::from(matches!(call, ChanCall::W(_)));
            assert_eq!(recorded[kind].woken(call), core, "{name}, {call:?}");
            given.made = broadcast.made().max(watch.made());
            let (made, told) = &mut counts[number];
            *made += u32::from(!refused);
            told[core.map_or(0, |it| 1 + it as usize)] += 1;
        }
    }
    let telling: Vec<_> = (0..)
        .zip(&counts)
        .filter(|(_, (_, told))| told[1] + told[2] > 0)
        .map(|(number, (_, told))| (MAKERS[number].0, [1, 2].map(|it| told[it] > 0)))
        .collect();
    assert!(counts.iter().all(|(made, _)| *made > 0), "{counts:?}");
    // In the words of tokio's documentation: those who receive go on after a send, and after the
    // drop of the last sender, and those who wait in `closed` after that of the last receiver.
    assert_eq!(
        telling,
        [
            ("broadcast_send", [true, false]),
            ("watch_send", [true, false]),
            ("watch_send_replace", [true, false]),
            ("watch_modify", [true, false]),
            ("broadcast_drop", [true, true]),
            ("watch_drop", [true, true]),
        ]
    );
}
