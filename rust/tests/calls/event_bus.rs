//! An event bus whose slow subscriber lags. The step at which it began to lag is found in the
//! journal.

use crate::support::{debugged, poll_once, temporary};
use yovanelum::broadcast::{self, error::RecvError};
use yovanelum::{Recorder, block_on, named};

/// Returns what `ttd debug` writes for these commands over the journal so far, or `None` where no
/// program can be started.
fn walked(recorder: &Recorder, commands: &str) -> Option<String> {
    let path = temporary::path("bus.journal");
    recorder.save(&path).unwrap();
    let written = debugged(&path, commands);
    std::fs::remove_file(&path).unwrap();
    std::fs::remove_file(path.with_extension("names")).unwrap();
    written
}

#[derive(Clone, Debug, PartialEq)]
enum Event {
    Opened,
    Price(u32),
}

/// Asserts that the third send is found as the step at which receiver 2 began to lag.
fn assert_step_is_found(recorder: &Recorder) {
    let commands =
        "rback reply lagged\nstep\nrback lagging 0 2\nback\nrforward lagging 0 2\nstep\n";
    let Some(written) = walked(recorder, commands) else {
        return;
    };
    let lines: Vec<_> = written.lines().collect();
    assert!(lines[1].contains(" recv 2 = lagged 1"), "{written}");
    let last = lines.last().unwrap();
    assert!(last.ends_with("send 0 2 = sent 2"), "{written}");
}

#[test]
fn a_slow_subscriber_lags() {
    let recorder = Recorder::for_test("a_slow_subscriber_lags");
    let (bus, mut screen) = broadcast::channel(2);
    recorder
        .name(&bus, "events")
        .show(&bus, |event| format!("{event:?}"));
    let mut audit = bus.subscribe();
    let screen = named("screen", async move {
        let mut seen = Vec::new();
        while let Ok(event) = screen.recv().await {
            seen.push(event);
        }
        seen
    });
    let mut screen = Box::pin(screen);
    for event in [Event::Opened, Event::Price(101), Event::Price(102)] {
        poll_once(named("ticker", async { bus.send(event).unwrap() })).unwrap();
        assert!(poll_once(screen.as_mut()).is_none());
    }
    drop(bus);
    assert_eq!(
        block_on(screen),
        [Event::Opened, Event::Price(101), Event::Price(102)]
    );
    let audited = block_on(named("auditor", async { audit.recv().await }));
    assert_eq!(audited, Err(RecvError::Lagged(1)));
    assert_eq!(audit.try_recv(), Ok(Event::Price(101)));
    let names = recorder.names();
    assert!(names.contains(r#""1": "Price(101)""#), "{names}");
    assert_step_is_found(&recorder);
}
