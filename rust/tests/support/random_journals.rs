//! Journals of random calls, which the core has recorded: for the unit tests of the packages that
//! read runs.

use yovanelum_core::shim::alloc::Global;
use yovanelum_core::source::rw_recording::{BCall, ChanCall, Cut, Recording, Spec, WCall};

/// How many random runs are made: 200, or as many as the variable `YOVANELUM_RUNS` says.
pub fn runs() -> u64 {
    match std::env::var("YOVANELUM_RUNS") {
        Ok(wanted) => wanted.parse().unwrap(),
        Err(_) if cfg!(miri) => 20,
        Err(_) => 200,
    }
}

/// Random numbers from a seed (xorshift64*).
pub struct Random(u64);

impl Random {
    pub fn below(&mut self, n: u32) -> u32 {
        self.0 ^= self.0 >> 12;
        self.0 ^= self.0 << 25;
        self.0 ^= self.0 >> 27;
        (self.0.wrapping_mul(0x2545_F491_4F6C_DD1D) >> 33) as u32 % n
    }
}

/// Returns random numbers for a run.
pub fn random_of(seed: u64) -> Random {
    Random(seed.wrapping_mul(0x9E37_79B9_7F4A_7C15) | 1)
}

/// Returns a random call. Sends and receives are the most frequent, and drops are rare enough for
/// some receivers to live on.
fn call(is_watch: bool, handle: u32, value: u64, random: &mut Random) -> ChanCall<u64> {
    use {BCall as B, WCall as W};
    if is_watch {
        ChanCall::W(match random.below(20) {
            0..=3 => W::Send(handle, value),
            4 => W::SendReplace(handle, value),
            5..=6 => W::Modify {
                told: value % 3 > 0,
                handle,
                value,
            },
            7..=9 => W::Changed(handle),
            10..=11 => W::Update(handle),
            12 => W::Borrow(handle),
            13 => W::MarkChanged(handle),
            14 => W::MarkUnchanged(handle),
            15 => W::Subscribe(handle),
            16 => W::CloneReceiver(handle),
            17 => W::CloneSender(handle),
            18 => W::HasChanged(handle),
            _ => W::DropHandle(handle),
        })
    } else {
        ChanCall::B(match random.below(20) {
            0..=6 => B::Send(handle, value),
            7..=10 => B::Recv(handle),
            11..=13 => B::TryRecv(handle),
            14 => B::Subscribe(handle),
            15 => B::Resubscribe(handle),
            16 => B::CloneSender(handle),
            17 => B::Downgrade(handle),
            18 => B::Upgrade(handle),
            _ => B::DropHandle(handle),
        })
    }
}

/// Returns channels with random calls, whose stamps are below 100.
pub fn random_channels(random: &mut Random) -> Vec<Recording> {
    let count = 1 + random.below(3);
    let mut channels: Vec<_> = (0..count)
        .map(|_| match random.below(3) {
            0 => Spec::Watch(0),
            _ => Spec::Broadcast(1 + random.below(4)),
        })
        .map(|spec| Recording::open(Global, spec).unwrap())
        .collect();
    for clock in 0..20 + u64::from(random.below(80)) {
        let core = &mut channels[random.below(count) as usize];
        let actor = random.below(3);
        let handle = match random.below(4) {
            0 => 0,
            1 => 1,
            _ => random.below(6),
        };
        let is_watch = matches!(core.spec(), Spec::Watch(_));
        let call = call(is_watch, handle, clock, random);
        // A call that would wait isn't recorded.
        let _ = core.call(actor, clock, call);
    }
    channels
}

/// Returns the text of what the channels have recorded up to this stamp.
pub fn text_of(channels: &[Recording], last: u64) -> String {
    let mut cut = Cut::new(Global);
    for core in channels {
        cut.add(Global, core, last).unwrap();
    }
    String::from_utf8(cut.text(Global).unwrap().to_vec()).unwrap()
}

/// Returns the journal text of random calls.
pub fn random_journal(seed: u64) -> String {
    text_of(&random_channels(&mut random_of(seed)), u64::MAX)
}
