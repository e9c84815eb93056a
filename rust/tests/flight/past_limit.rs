//! A test that makes more calls than a journal takes: the last ones are in its journal.

use super::support::named::member;
use super::windows::{trigger, windows};
use yovanelum::debugger::Walk;
use yovanelum::{Recorder, broadcast, watch};

#[test]
fn past_the_limit_a_test_keeps_its_last_calls() {
    let recorder = Recorder::for_test("past_the_limit");
    let (prices, mut chart) = broadcast::channel(4);
    let (config, _server) = watch::channel(0);
    recorder
        .name(&prices, "prices")
        .name(&chart, "chart")
        .name(&config, "config");
    recorder.show(&prices, |price| format!("{price} EUR"));
    config.send(1).unwrap();
    for price in 0..600_000 {
        prices.send(price).unwrap();
        assert_eq!(chart.try_recv(), Ok(price));
    }
    config.send(2).unwrap();
    for price in 0..5 {
        prices.send(price).unwrap();
    }
    assert!(chart.try_recv().is_err());
    let (journal, names) = (recorder.journal().unwrap(), recorder.names());
    let walk = Walk::open(journal.as_bytes()).unwrap();
    let last = walk.entry(walk.len()).unwrap();
    assert_eq!((last.reply(), last.returned()), ("lagged", Some(1)));
    assert_eq!(trigger(&names), "limit");
    let windows = windows(&names);
    let calls = 2 * 600_000 + 6;
    assert!((524_288..=1_048_576).contains(&(calls - windows[0].calls)));
    // The other channel has all of its calls.
    assert_eq!(windows[1].calls, 0);
    assert!(member(&names, "unrecorded").is_empty());
    assert!(member(&names, "values").contains("\"600004\": \"4 EUR\""));
    assert!(!member(&names, "values").contains("\"0\": \"0 EUR\""));
    assert_eq!(recorder.len(), calls - windows[0].calls + 2);
}
