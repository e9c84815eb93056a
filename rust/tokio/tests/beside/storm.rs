//! A storm: the same random scripts on tokio's channels and on these. Calls have the same answers,
//! wake the same tasks in the same order, and drop the same values. Each second script is recorded:
//! its journal has tokio's answers, and of each hundredth the account is what they come to.
//!
//! `YOVANELUM_RUNS` says how many scripts there are of each kind of channel. tokio 1.24.2 has no
//! weak sender, no `wait_for`, no clone of a watch's sender, and no `closed` of a broadcast.

mod broadcasts;
mod channels;
mod journal;
mod seat;
mod seen;
mod watches;

use channels::{This, Tokio};
use seen::{Answer, Seen};
use yovanelum::Recorder;

/// Of how many scripts one has its account checked.
const ACCOUNTS: u64 = 100;

/// What was compared.
#[derive(Debug, Default)]
struct Compared {
    scripts: u64,
    calls: u64,
    wakes: u64,
    drops: u64,
    waits: u64,
    lags: u64,
    late: u64,
    journals: u64,
    accounts: u64,
}

impl Compared {
    fn add(&mut self, seen: &[Seen]) {
        self.scripts += 1;
        for it in seen {
            match it {
                Seen::Call(.., Answer::Waits) => self.waits += 1,
                Seen::Call(.., answer) => {
                    self.calls += 1;
                    self.lags += u64::from(matches!(answer, Answer::Lagged(_)));
                }
                Seen::Woken(_) => self.wakes += 1,
                Seen::WokenLate(_) => self.late += 1,
                Seen::Dropped(_) => self.drops += 1,
            }
        }
    }
}

/// Checks that both have seen the same.
fn check_same(ours: &[Seen], theirs: &[Seen], seed: u64) {
    if ours == theirs {
        return;
    }
    let same = ours.iter().zip(theirs).take_while(|(a, b)| a == b).count();
    let before = &ours[same.saturating_sub(12)..same];
    let (ours, theirs) = (ours.get(same), theirs.get(same));
    panic!("seed {seed}: {ours:?} here, and {theirs:?} in tokio, after {before:?}");
}

/// How many scripts there are of a kind.
fn scripts() -> u64 {
    let runs = std::env::var("YOVANELUM_RUNS").ok();
    runs.map_or(1_000, |runs| runs.parse().unwrap())
}

/// Plays scripts on both channels. `order` brings what tokio's has seen into the order of these.
fn storm(
    kind: &str,
    [theirs, ours]: [fn(u64); 2],
    order: fn(&mut [Seen]),
    retained: fn(u64) -> Option<u64>,
) -> Compared {
    let mut compared = Compared::default();
    for seed in 0..scripts() {
        theirs(seed);
        let mut theirs = seen::take();
        compared.add(&theirs);
        // Of a forgotten call that is over, this crate wakes nobody.
        theirs.retain(|it| !matches!(it, Seen::WokenLate(_)));
        order(&mut theirs);
        let recorder = (seed % 2 == 0).then(Recorder::new);
        let entered = recorder.as_ref().map(Recorder::enter);
        ours(seed);
        drop(entered);
        check_same(&seen::take(), &theirs, seed);
        let Some(recorder) = recorder else { continue };
        journal::check(&recorder, &theirs, seed);
        compared.journals += 1;
        if seed % ACCOUNTS == 0 {
            journal::check_account(&recorder, &theirs, retained(seed), seed);
            compared.accounts += 1;
        }
    }
    println!("compared of a {kind}: {compared:?}");
    compared
}

#[test]
fn of_a_broadcast() {
    let play = [broadcasts::play::<Tokio>, broadcasts::play::<This>];
    let compared = storm("broadcast", play, |_| (), broadcasts::retained);
    assert!(compared.wakes.min(compared.lags) > scripts() && compared.late > 0);
}

/// tokio's watch wakes those who wait from the last to the first.
fn turn_wakes(seen: &mut [Seen]) {
    let are_woken = |a: &Seen, b: &Seen| matches!((a, b), (Seen::Woken(_), Seen::Woken(_)));
    seen.chunk_by_mut(are_woken).for_each(<[Seen]>::reverse);
}

#[test]
fn of_a_watch() {
    let play = [watches::play::<Tokio>, watches::play::<This>];
    let compared = storm("watch", play, turn_wakes, |_| None);
    assert!(compared.wakes > scripts() && compared.late > 0);
}
