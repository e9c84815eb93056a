//! What is found in the text of a run: the text is read, its losses, totals and closings are found, and what came on its channel.

use crate::met::{TRIES, refused, say};
use proved::Global;
use proved::rw_findings::traffic_of;
use proved::rw_journal::Run;
use proved::rw_recording::{Findings, TextFault};
use proved::rw_text::read;

/// A receiver loses one of two values, and is told. The channel closes before it receives the other.
const TEXT: &[u8] =
    b"ttd-journal 2\nbroadcast 1\nsteps\n1 0 0 send 0 5 = sent 1\n2 0 0 send 0 6 = sent 1\n\
3 0 0 try-recv 1 = lagged 1\n4 0 0 drop 0 = dropped\nend\n";

/// Finds what is in a text, and what came on its channel, and says how much.
pub fn play() {
    find();
    find_traffic();
}

fn find_traffic() {
    for _ in 0..TRIES {
        let run: Run<u64> = match read(Global, TEXT) {
            Ok(run) => run,
            Err(TextFault::NoMemory) => {
                refused(true);
                continue;
            }
            Err(fault) => return say!("{fault:?}"),
        };
        match traffic_of(Global, &run, &[true]) {
            Ok(found) => {
                let channel = found[0].as_ref().unwrap();
                let (values, lives) = (channel.values().len(), channel.lives().len());
                return say!("values: {values}, lives: {lives}");
            }
            Err(_) => refused(true),
        }
    }
    say!("no traffic is found");
}

fn find() {
    for _ in 0..TRIES {
        match Findings::read(Global, TEXT) {
            Ok(found) => {
                let (losses, closings) = (found.losses().len(), found.closings().len());
                return say!(
                    "{} entries, losses: {losses}, closings: {closings}",
                    found.entries()
                );
            }
            Err(TextFault::NoMemory) => refused(true),
            Err(fault) => return say!("{fault:?}"),
        }
    }
    say!("nothing is found");
}
