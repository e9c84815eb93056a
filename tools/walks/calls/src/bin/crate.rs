//! Sends NUMBER values by the Rust crate, under a recorder: `crate NUMBER`.

use yovanelum::{Recorder, broadcast};

fn main() {
    let number: u64 = std::env::args().nth(1).unwrap().parse().unwrap();
    let recorder = Recorder::new();
    let _installed = recorder.install();
    let (sender, receiver) = broadcast::channel(4);
    for value in 0..number {
        sender.send(value).unwrap();
    }
    // What their drops execute depends on how much was sent, and isn't on a send's way.
    std::mem::forget((sender, receiver));
}
