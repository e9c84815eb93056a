//! What came on all channels of a run, beside what is found channel by channel.

use crate::texts::rows::run_of;
use proved::Global;
use proved::rw_findings::{ChannelTraffic, Life, lives_of, traffic_of, values_of};
use proved::rw_journal::Run;
use support::Random;

/// How many random runs are compared.
const RUNS: u64 = 3_000;

/// Channel 0 overwrites a value, which receiver 2 was made too late for. Nobody looks at the watch, and nothing is sent on channel 2.
const SCRIPT: &[u8] = b"broadcast 1\nwatch 4\nbroadcast 8\n0 0 send 0 7\n0 1 send 0 5\n0 0 subscribe 0\n0 0 send 0 8\n0 0 drop 2\n";

const CALLS: [&[&str]; 2] = [
    &[
        "send",
        "send",
        "send",
        "try-recv",
        "try-recv",
        "subscribe",
        "resubscribe",
        "clone-sender",
        "downgrade",
        "drop",
    ],
    &[
        "send",
        "send-replace",
        "modify",
        "borrow",
        "update",
        "has-changed",
        "mark-unchanged",
        "subscribe",
        "clone-receiver",
        "clone-sender",
        "drop",
    ],
];

fn found_in<V: Copy>(run: &Run<V>, channels: &[bool]) -> Vec<Option<ChannelTraffic<V>>> {
    let found = traffic_of(Global, run, channels).unwrap();
    found.into_iter().collect()
}

/// What a life shows.
fn shown(lives: &[Life]) -> Vec<impl PartialEq + std::fmt::Debug> {
    let shown = |life: &Life| {
        let (made, dropped) = (life.made(), life.dropped());
        (
            life.kind(),
            made,
            life.maker(),
            dropped,
            life.calls().to_vec(),
        )
    };
    lives.iter().map(shown).collect()
}

/// A call on a channel of either kind, by a handle that may not be there or be of another kind.
fn random_line(random: &mut Random, channel: usize, is_watch: bool) -> String {
    let calls = CALLS[usize::from(is_watch)];
    let word = calls[random.below(calls.len())];
    let (actor, handle) = (random.below(3), random.below(7));
    let value = match word {
        "send" | "send-replace" => format!(" {}", random.below(100)),
        "modify" => format!(" {} {}", random.below(100), ["no", "yes"][random.below(2)]),
        _ => String::new(),
    };
    format!("{actor} {channel} {word} {handle}{value}\n")
}

/// A script of random calls on up to five channels.
fn random_script(random: &mut Random) -> String {
    let kinds: Vec<bool> = (0..1 + random.below(5))
        .map(|_| random.below(3) == 0)
        .collect();
    let mut script = String::new();
    for is_watch in &kinds {
        script += &match is_watch {
            true => "watch 9\n".to_string(),
            false => format!("broadcast {}\n", 1 + random.below(4)),
        };
    }
    script += "actors 3\n";
    for _ in 0..random.below(120) {
        let channel = random.below(kinds.len());
        script += &random_line(random, channel, kinds[channel]);
    }
    script
}

#[test]
fn traffic_of_channels_is_found() {
    let run = run_of(SCRIPT);
    let found = found_in(&run, &[true, true, true]);
    let values = |channel: usize| {
        let found = found[channel].as_ref().unwrap().values().iter();
        found
            .map(|it| (it.value, it.since, it.overwritten))
            .collect::<Vec<_>>()
    };
    assert_eq!(values(0), [(7, 1, Some(4)), (8, 4, None)]);
    assert_eq!(values(1), [(4, 0, Some(2)), (5, 2, None)]);
    assert_eq!(values(2), []);
    let lives = |channel: usize| {
        let found = found[channel].as_ref().unwrap().lives().iter();
        found
            .map(|it| (it.made(), it.dropped()))
            .collect::<Vec<_>>()
    };
    assert_eq!(lives(0), [(0, None), (0, None), (3, Some(5))]);
    assert_eq!(lives(1), [(0, None), (0, None)]);
    assert_eq!(lives(2), [(0, None), (0, None)]);
}

#[test]
fn channels_that_nobody_asks_for_have_none() {
    let run = run_of(SCRIPT);
    let asked = |channels: &[bool]| -> Vec<bool> {
        let found = found_in(&run, channels);
        found.iter().map(Option::is_some).collect()
    };
    assert_eq!(asked(&[false, true, false]), [false, true, false]);
    assert_eq!(asked(&[true]), [true, false, false]);
    assert_eq!(asked(&[]), [false; 3]);
    assert_eq!(asked(&[true; 5]), [true; 3]);
}

#[test]
fn traffic_of_random_runs_is_what_each_channel_has() {
    let (mut values, mut overwritten, mut made, mut dropped) = (0, 0, 0, 0);
    for seed in 0..RUNS {
        let mut random = Random::new(seed);
        let script = random_script(&mut random);
        let run = run_of(script.as_bytes());
        let count = run.specs().len();
        let asked: Vec<bool> = (0..count).map(|_| random.below(4) > 0).collect();
        let found = found_in(&run, &asked);
        assert_eq!(found.len(), count);
        for (channel, found) in found.iter().enumerate() {
            assert_eq!(found.is_some(), asked[channel], "{script}");
            let Some(found) = found else { continue };
            let of_values = values_of(Global, &run, channel as u32).unwrap();
            let of_lives = lives_of(Global, &run, channel as u32).unwrap();
            assert_eq!(found.values(), &of_values[..], "{script}");
            assert_eq!(shown(found.lives()), shown(&of_lives), "{script}");
            values += of_values.len();
            overwritten += of_values
                .iter()
                .filter(|it| it.overwritten.is_some())
                .count();
            made += of_lives.iter().filter(|it| it.made() > 0).count();
            dropped += of_lives.iter().filter(|it| it.dropped().is_some()).count();
        }
    }
    // Each is frequent, so the comparison isn't empty.
    for count in [values, overwritten, made, dropped] {
        assert!(
            count as u64 > RUNS / 2,
            "{values} {overwritten} {made} {dropped}"
        );
    }
}
