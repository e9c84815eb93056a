//! How much memory of this process is in use while a flight recorder runs, by the allocator of the
//! system. A program of its own, since that of other tests would be counted too.

// On an emulated processor the emulator's would be.
#![cfg(all(target_os = "linux", target_arch = "x86_64"))]

mod support;

use std::fs;
use support::Random;
use yovanelum::{Recorder, broadcast};

/// How many KiB this process has written to, in memory or swapped out. Pages of files aren't
/// counted, since a system that is short of memory drops them, and reads them again.
fn written() -> usize {
    let sizes = fs::read_to_string("/proc/self/smaps_rollup").unwrap();
    let size = |name: &str| -> usize {
        let line = sizes.lines().find_map(|line| line.strip_prefix(name));
        let size = line.unwrap().trim().strip_suffix(" kB");
        size.unwrap().parse().unwrap()
    };
    size("Anonymous:") + size("Swap:")
}

type Channel = (broadcast::Sender<u32>, broadcast::Receiver<u32>);

/// Uses channels in random order, `times` times.
fn use_some(channels: &mut [Channel], random: &mut Random, times: u32) {
    for value in 0..times {
        let at = random.below(channels.len());
        let (tx, rx) = &mut channels[at];
        tx.send(value).unwrap();
        let _ = rx.try_recv();
        if random.below(4) == 0 {
            drop(tx.subscribe());
        }
    }
}

#[test]
fn blocks_that_come_and_go_take_no_more_memory() {
    let recorder = Recorder::flight(200);
    let _entered = recorder.enter();
    let mut channels: Vec<_> = (0..4).map(|_| broadcast::channel(16)).collect();
    let mut random = Random::new(1);
    // Each chunk copies a table of handles, whose block grows with the sends to a mebibyte and
    // more, and of which little is filled.
    use_some(&mut channels, &mut random, 50_000);
    let before = written();
    use_some(&mut channels, &mut random, 200_000);
    let more = written().saturating_sub(before);
    // It is 2,300 and more where a copy keeps what others have written to its block.
    assert!(more < 512, "{more} KiB more");
}
