//! Dumps of a flight recorder, each request for memory of whose own thread is refused in turn. The
//! calls of the service go on, and nothing is lost but the dump. It is a program of its own, since
//! all threads but the test's are refused memory.

// WebAssembly has no threads.
#![cfg(not(target_family = "wasm"))]

#[path = "support/dumped_service.rs"]
mod dumped_service;
#[path = "support/refusing.rs"]
mod refusing;
mod support;

use dumped_service::Service;
use refusing::{Refusing, refusing_others};
use std::fs;
use support::parts::Folder;
use support::temporary::files_in;
use yovanelum::Recorder;

#[global_allocator]
static ALLOCATOR: Refusing = Refusing;

/// How many bytes a request has that is refused. All that grows with calls, handles or texts has as
/// many here; for what is smaller, std ends the process.
const LEAST: usize = 2 << 10;

#[test]
fn each_request_of_a_dump_is_refused_and_the_service_goes_on() {
    let made = Folder::new("refused-memory");
    let folder = made.0.join("dumps");
    let (mut requests, mut failed) = (0, 0);
    loop {
        let _ = fs::remove_dir_all(&folder);
        let recorder = Recorder::flight(1_000);
        recorder.dump_to(&folder).keep(1);
        let _entered = recorder.enter();
        let mut service = Service::begin(&recorder);
        (0..1_000).for_each(|_| service.step());
        let (ended, refused) = refusing_others(LEAST, requests, || {
            let dump = recorder.dump("a try");
            (0..100).for_each(|_| service.step());
            dump.wait()
        });
        requests += 1;
        let dumps = recorder.dumps();
        let Err(error) = ended else {
            // None was refused, or the core went on with less room.
            assert_eq!((dumps.written(), dumps.failed()), (1, 0));
            if refused == 0 {
                break;
            }
            continue;
        };
        // A line has said it, which is counted.
        let error = error.to_string();
        assert!(error.starts_with("no memory for the "), "{error}");
        assert_eq!((dumps.written(), dumps.failed()), (0, 1));
        assert!(files_in(&folder).is_empty());
        failed += 1;
        service.step();
        // There is memory again, and the dump has the last calls.
        let path = recorder.dump("asked for").wait().unwrap();
        service.assert_is_last_of(&path);
    }
    // At least one for the calls of each channel, for their sites, leads, windows, and for the text
    // and the names.
    assert!(failed >= 12, "{failed}");
}
