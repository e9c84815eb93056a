//! A service's way: it logs by tracing-subscriber, and a receiver lags.

use std::collections::BTreeMap;
use std::fmt::Debug;
use std::sync::{Arc, Mutex};
use tracing::field::{Field, Visit};
use tracing::{Event, Level, Subscriber};
use tracing_subscriber::layer::{Context, Layer, SubscriberExt};
use yovanelum::broadcast::error::TryRecvError;
use yovanelum::{Recorder, block_on, broadcast, named, watch};

/// An event, as a subscriber sees it.
#[derive(Clone, Debug)]
struct Seen {
    target: String,
    level: Level,
    fields: BTreeMap<&'static str, String>,
}

#[derive(Default)]
struct Fields(BTreeMap<&'static str, String>);

impl Visit for Fields {
    fn record_debug(&mut self, field: &Field, value: &dyn Debug) {
        self.0.insert(field.name(), format!("{value:?}"));
    }
}

/// A layer that keeps each event.
#[derive(Clone, Default)]
struct Keep(Arc<Mutex<Vec<Seen>>>);

impl<S: Subscriber> Layer<S> for Keep {
    fn on_event(&self, event: &Event<'_>, _: Context<'_, S>) {
        let mut fields = Fields::default();
        event.record(&mut fields);
        self.0.lock().unwrap().push(Seen {
            target: event.metadata().target().to_string(),
            level: *event.metadata().level(),
            fields: fields.0,
        });
    }
}

/// Runs a service whose events are kept, and returns them.
fn events_of(service: impl FnOnce()) -> Vec<Seen> {
    let kept = Keep::default();
    let subscriber = tracing_subscriber::registry().with(kept.clone());
    tracing::subscriber::with_default(subscriber, service);
    kept.0.lock().unwrap().clone()
}

/// Returns a field that is a place of this file, as its line.
fn line(seen: &Seen, field: &str) -> u32 {
    let (file, rest) = seen.fields[field].split_once(':').unwrap();
    assert_eq!(file, file!());
    let (line, column) = rest.split_once(':').unwrap();
    assert!(column.parse::<u32>().unwrap() > 0);
    line.parse().unwrap()
}

/// Returns the fields that are no place.
fn others(seen: &Seen) -> Vec<(&str, &str)> {
    let fields = seen.fields.iter();
    let others = fields.filter(|(name, _)| !name.ends_with("_at") && **name != "message");
    others
        .map(|(name, value)| (*name, value.as_str()))
        .collect()
}

#[test]
fn each_thing_of_a_lag_and_of_a_close_is_a_field() {
    yovanelum_tracing::install();
    let (mut made, mut sent, mut received) = (0, 0, 0);
    let seen = events_of(|| {
        let (prices, mut chart) = broadcast::channel(2);
        made = line!() - 1;
        Recorder::off()
            .name(&prices, "prices")
            .name(&chart, "chart");
        block_on(named("exchange", async {
            for price in 0..5 {
                sent = line!() + 1;
                prices.send(price).unwrap();
            }
        }));
        received = line!() + 1;
        assert_eq!(chart.try_recv(), Err(TryRecvError::Lagged(3)));
        chart.try_recv().unwrap();
        block_on(named("shutdown", async { drop(prices) }));
    });
    let [lag, close] = &seen[..] else {
        panic!("two events: {seen:?}");
    };
    assert_eq!((&*lag.target, lag.level), ("yovanelum", Level::WARN));
    let wanted = [
        ("capacity", "2"),
        ("channel", "\"prices\""),
        ("lost", "3"),
        ("lost_in_all", "3"),
        ("receiver", "\"chart\""),
        ("sender", "\"exchange\""),
        ("unread", "2"),
    ];
    assert_eq!(others(lag), wanted);
    let places = [
        "channel_made_at",
        "receiver_made_at",
        "received_at",
        "sent_at",
    ];
    assert_eq!(
        places.map(|field| line(lag, field)),
        [made, made, received, sent]
    );
    assert_eq!(
        lag.fields["message"],
        format!(
            "`chart` lost 3 values of `prices` (capacity 2), 3 in all, and has 2 to receive; the last send was by exchange at {}:{sent}",
            file!()
        )
    );

    assert_eq!((&*close.target, close.level), ("yovanelum", Level::INFO));
    let wanted = [
        ("capacity", "2"),
        ("channel", "\"prices\""),
        ("closed_by", "\"shutdown\""),
        ("receivers", "1"),
        ("sender", "\"exchange\""),
        ("sent", "5"),
        ("unread", "1"),
    ];
    assert_eq!(others(close), wanted);
    assert_eq!(
        [line(close, "channel_made_at"), line(close, "sent_at")],
        [made, sent]
    );
    assert!(close.fields["message"].starts_with("`prices` was closed by shutdown after 5 values"));
}

#[test]
fn what_is_not_there_is_no_field() {
    let recorder = Recorder::new();
    recorder.on_close(yovanelum_tracing::close);
    let seen = events_of(|| {
        let _entered = recorder.enter();
        drop(watch::channel(1));
    });
    let fields: Vec<_> = seen[0].fields.keys().copied().collect();
    let wanted = [
        "channel",
        "channel_made_at",
        "closed_by",
        "message",
        "receivers",
        "sent",
        "unread",
    ];
    assert_eq!(fields, wanted);
}

#[test]
fn a_log_has_the_lag_on_one_line() {
    let recorder = Recorder::new();
    recorder.on_lag(yovanelum_tracing::lag).on_close(|_| ());
    let log = Arc::new(Mutex::new(Vec::<u8>::new()));
    let writer = log.clone();
    let subscriber = tracing_subscriber::fmt()
        .without_time()
        .with_writer(move || Log(writer.clone()))
        .finish();
    tracing::subscriber::with_default(subscriber, || {
        let _entered = recorder.enter();
        let (prices, mut chart) = broadcast::channel(1);
        recorder.name(&prices, "prices").name(&chart, "chart");
        (0..2).for_each(|price| assert_eq!(prices.send(price).unwrap(), 1));
        assert!(chart.try_recv().is_err());
    });
    let log = String::from_utf8(log.lock().unwrap().clone()).unwrap();
    assert!(
        log.starts_with(" WARN yovanelum: `chart` lost 1 value of `prices` (capacity 1)"),
        "{log}"
    );
    assert!(
        log.contains(" channel=\"prices\" ") && log.contains(" lost=1 "),
        "{log}"
    );
    assert_eq!(log.lines().count(), 1);
}

/// A log in memory.
struct Log(Arc<Mutex<Vec<u8>>>);

impl std::io::Write for Log {
    fn write(&mut self, bytes: &[u8]) -> std::io::Result<usize> {
        self.0.lock().unwrap().extend_from_slice(bytes);
        Ok(bytes.len())
    }

    fn flush(&mut self) -> std::io::Result<()> {
        Ok(())
    }
}
