//! Snapshots of a channel, of a recorder, and of all channels.

use crate::told::{line, send_each};
use std::future::Future;
use std::pin::pin;
use std::task::{Context, Waker};
use std::time::{Duration, Instant, SystemTime};
use yovanelum::broadcast::error::TryRecvError;
use yovanelum::{ChannelSnapshot, Recorder, block_on, broadcast, named, watch};

#[test]
fn a_recorded_broadcast_says_each_thing_of_the_channel_and_of_its_receivers() {
    let recorder = Recorder::new();
    let _entered = recorder.enter();
    let (made, (prices, mut chart)) = (line!(), broadcast::channel(3));
    let (subscribed, mut audit) = (line!(), prices.subscribe());
    recorder.name(&prices, "prices").name(&chart, "chart");
    let (_other, _weak) = (prices.clone(), prices.downgrade());
    for price in 0..6 {
        prices.send(price).unwrap();
    }
    // A capacity of 3 retains 4.
    assert_eq!(chart.try_recv(), Err(TryRecvError::Lagged(2)));
    let (received, result) = (line!(), chart.try_recv());
    assert_eq!(result, Ok(2));
    let sent = block_on(named("exchange", async {
        (line!(), prices.send(6).unwrap()).0
    }));

    let calls = recorder.len();
    let channel = ChannelSnapshot::of(&audit);
    assert_eq!(recorder.len(), calls, "no call is recorded for it");
    assert_eq!((channel.name(), channel.capacity()), ("prices", Some(3)));
    assert_eq!(line(channel.made_at()), made);
    assert_eq!((channel.sent(), channel.retained()), (7, 4));
    assert_eq!((channel.senders(), channel.weak_senders()), (2, 1));
    assert_eq!(channel.sender(), Some("exchange"));
    assert_eq!(line(channel.sent_at()), sent);
    // Subscribe, clone and downgrade are the calls 1 to 3, the sends 4 to 9, `Lagged` is 10, and
    // what is received 11. Nothing but a flight recorder looks at the clock.
    assert_eq!((channel.sent_call(), channel.sent_time()), (Some(12), None));
    let [chart, waiting] = channel.receivers() else {
        panic!("two receivers: {channel:?}");
    };
    assert_eq!(chart.name(), "chart");
    assert_eq!((chart.unread(), chart.lag(), chart.lost()), (4, 0, 2));
    assert_eq!(
        (line(chart.made_at()), line(chart.received_at())),
        (made, received)
    );
    assert_eq!(chart.received_call(), Some(11));
    assert_eq!(chart.received_time(), None);
    let journal = recorder.journal().unwrap();
    assert!(
        journal.contains("\n11 0 0 try-recv 1 = value 2\n"),
        "{journal}"
    );
    assert_eq!(
        (
            chart.waits_in(),
            chart.waits_at(),
            chart.waits_since(),
            chart.waits_for()
        ),
        (None, None, None, None)
    );
    assert_eq!(waiting.name(), "receiver 2");
    assert_eq!((waiting.unread(), waiting.lag(), waiting.lost()), (7, 3, 0));
    assert_eq!(line(waiting.made_at()), subscribed);
    assert_eq!(
        (waiting.received_at(), waiting.received_call()),
        (None, None)
    );
    assert_eq!(
        audit.try_recv(),
        Err(TryRecvError::Lagged(3)),
        "as its lag said"
    );
}

#[test]
fn a_channel_that_nobody_records_says_the_same_without_stamps() {
    let _off = Recorder::off().enter();
    let (prices, mut chart) = broadcast::channel(2);
    Recorder::off()
        .name(&prices, "prices")
        .name(&chart, "chart");
    for price in 0..3 {
        prices.send(price).unwrap();
    }
    assert!(chart.try_recv().is_err());
    let (received, _) = (line!(), chart.try_recv().unwrap());
    chart.try_recv().unwrap();
    let before = ChannelSnapshot::of(&prices);
    let [before] = before.receivers() else {
        panic!()
    };
    assert_eq!(
        (before.name(), before.unread(), before.lost()),
        ("chart", 0, 1)
    );
    assert_eq!(
        (line(before.received_at()), before.received_call()),
        (received + 1, None)
    );

    let mut context = Context::from_waker(Waker::noop());
    let (called, mut recv) = (line!(), pin!(chart.recv()));
    let before = Instant::now();
    assert!(recv.as_mut().poll(&mut context).is_pending());
    let after = Instant::now();
    let least = after.elapsed();
    let waiting = ChannelSnapshot::of(&prices);
    let most = before.elapsed();
    let [waiting] = waiting.receivers() else {
        panic!()
    };
    assert_eq!(
        (waiting.waits_in(), waiting.waits_since()),
        (Some("recv"), None)
    );
    assert_eq!(line(waiting.waits_at()), called);
    assert!((least..=most).contains(&waiting.waits_for().unwrap()));
    prices.send(7).unwrap();
    assert!(recv.as_mut().poll(&mut context).is_ready());
    let after = ChannelSnapshot::of(&prices);
    let [after] = after.receivers() else { panic!() };
    assert_eq!(
        (after.waits_in(), line(after.received_at())),
        (None, called)
    );
}

#[test]
fn a_wait_that_is_recorded_says_since_which_call() {
    let recorder = Recorder::new();
    let _entered = recorder.enter();
    let (config, mut server) = watch::channel("v1");
    config.send("v2").unwrap();
    block_on(server.changed()).unwrap();
    let mut context = Context::from_waker(Waker::noop());
    let mut changed = pin!(server.changed());
    assert!(changed.as_mut().poll(&mut context).is_pending());
    let snapshot = recorder.snapshot();
    let [waiting] = snapshot.channels()[0].receivers() else {
        panic!()
    };
    assert_eq!(
        (waiting.waits_in(), waiting.waits_since()),
        (Some("changed"), Some(2))
    );
    assert_eq!(waiting.waits_since(), Some(recorder.waiting()[0].since()));
}

#[test]
fn a_watch_says_who_has_seen_its_value() {
    let recorder = Recorder::new();
    let _entered = recorder.enter();
    let (config, mut server) = watch::channel(1);
    let client = config.subscribe();
    drop(client);
    assert!(config.send(2).is_ok());
    let mut client = config.subscribe();
    config.send_modify(|value| *value += 1);
    assert_eq!(*server.borrow_and_update(), 3);
    let (updated, _) = (line!(), *server.borrow_and_update());
    let snapshot = ChannelSnapshot::of(&config);
    assert_eq!(
        (snapshot.capacity(), snapshot.sent(), snapshot.retained()),
        (None, 2, 1)
    );
    let [first, second] = snapshot.receivers() else {
        panic!()
    };
    assert_eq!((first.unread(), second.unread()), (0, 1));
    assert_eq!((first.lag(), first.lost(), second.lag()), (0, 0, 0));
    assert_eq!(line(first.received_at()), updated);
    assert_eq!(second.received_at(), None);
    block_on(client.changed()).unwrap();
    assert_eq!(ChannelSnapshot::of(&client).receivers()[1].unread(), 0);
    assert!(
        ChannelSnapshot::of(&client).receivers()[1]
            .received_at()
            .is_some()
    );
    let waited = block_on(async { *client.wait_for(|value| *value == 3).await.unwrap() });
    assert_eq!(waited, 3);
    drop((server, client));
    assert!(config.send(4).is_err());
    assert_eq!(ChannelSnapshot::of(&config).sent(), 2, "it wasn't sent");
    assert!(ChannelSnapshot::of(&config).receivers().is_empty());
}

#[test]
fn a_recorder_has_its_own_channels_that_are_alive_and_the_process_has_all() {
    let (one, other) = (Recorder::new(), Recorder::new());
    let names = |snapshot: yovanelum::Snapshot| -> Vec<String> {
        let channels = snapshot.channels().iter();
        channels
            .map(|channel| channel.name().to_string())
            .filter(|name| name.starts_with("of "))
            .collect()
    };
    let entered = one.enter();
    let (of_one, _rx) = broadcast::channel::<u8>(1);
    let (gone, rx) = broadcast::channel::<u8>(1);
    one.name(&of_one, "of one").name(&gone, "of nobody");
    drop(entered);
    let entered = other.enter();
    let (_tx, of_other) = watch::channel(1);
    other.name_channel(&of_other, "of other");
    drop(entered);
    let (unrecorded, _rx) = broadcast::channel::<u8>(1);
    Recorder::off().name(&unrecorded, "of none");
    assert_eq!(names(one.snapshot()), ["of one", "of nobody"]);
    drop((gone, rx));
    assert_eq!(names(one.snapshot()), ["of one"]);
    assert_eq!(names(other.snapshot()), ["of other"]);
    assert_eq!(
        names(yovanelum::snapshot()),
        ["of one", "of other", "of none"]
    );
    assert_eq!(Recorder::new().snapshot().to_string(), "");
}

#[test]
fn receivers_past_the_first_65536_handles_are_there_too() {
    let (prices, _first) = broadcast::channel(2);
    for _ in 0..65_600 {
        drop(prices.subscribe());
    }
    let mut late = prices.subscribe();
    Recorder::off().name(&late, "late");
    send_each(&prices, 0..3);
    assert!(late.try_recv().is_err());
    let snapshot = ChannelSnapshot::of(&prices);
    let [first, late] = snapshot.receivers() else {
        panic!("{snapshot}")
    };
    assert_eq!((first.unread(), first.lag(), first.lost()), (3, 1, 0));
    assert_eq!(
        (late.name(), late.unread(), late.lag(), late.lost()),
        ("late", 2, 0, 1)
    );
}

/// Waits until the clock says that this time is over, since times of calls are compared.
fn pass(time: Duration) {
    let began = Instant::now();
    while began.elapsed() < time {
        std::thread::yield_now();
    }
}

#[test]
fn a_call_that_nobody_follows_has_the_time_at_which_its_receiver_waited_again() {
    let recorder = Recorder::flight(100);
    let _entered = recorder.enter();
    let (prices, mut chart) = broadcast::channel(2);
    pass(Duration::from_millis(20));
    let before = SystemTime::now();
    prices.send(101).unwrap();
    assert_eq!(block_on(chart.recv()), Ok(101));
    let mut recv = pin!(chart.recv());
    let mut context = Context::from_waker(Waker::noop());
    assert!(recv.as_mut().poll(&mut context).is_pending());
    let waits = SystemTime::now();
    pass(Duration::from_millis(20));
    let channel = ChannelSnapshot::of(&prices);
    // A time has milliseconds, and is rounded down.
    let least = before - Duration::from_millis(2);
    let received = channel.receivers()[0].received_time().unwrap();
    assert!(
        (least..=waits).contains(&received),
        "{received:?} {waits:?}"
    );
    let sent = channel.sent_time().unwrap();
    assert!((least..=received).contains(&sent), "{sent:?} {received:?}");
    // What was told once is told again, and by each snapshot.
    pass(Duration::from_millis(20));
    prices.send(102).unwrap();
    let later = recorder.snapshot();
    let chart = &later.channels()[0].receivers()[0];
    assert_eq!(chart.received_time(), Some(received));
    assert!(later.channels()[0].sent_time() > Some(sent));
}

/// Two receivers, one of which has lost a value and one of which waits, with the lines where both
/// were made, and where each received or waits.
fn two_receivers(check: impl FnOnce(&Recorder, [u32; 4])) {
    let recorder = Recorder::new();
    let _entered = recorder.enter();
    let (made, (prices, mut chart)) = (line!(), broadcast::channel(2));
    for price in 0..3 {
        block_on(named("exchange", async { prices.send(price).unwrap() }));
    }
    let sent = line!() - 2;
    assert!(chart.try_recv().is_err());
    let (received, _) = (line!(), chart.try_recv().unwrap());
    let mut audit = prices.subscribe();
    recorder
        .name(&prices, "prices")
        .name(&chart, "the \"chart\"");
    let (waits, mut recv) = (line!(), pin!(audit.recv()));
    let mut context = Context::from_waker(Waker::noop());
    assert!(recv.as_mut().poll(&mut context).is_pending());
    check(&recorder, [made, sent, received, waits]);
}

#[test]
fn a_person_reads_a_table() {
    two_receivers(|recorder, [made, sent, received, waits]| {
        let (file, text) = (file!(), recorder.snapshot().to_string());
        let lines: Vec<_> = text.lines().collect();
        let head = format!(
            "prices: broadcast, capacity 2, sent 3, retained 1, senders 1, last sent by exchange at {file}:{sent}, call 3"
        );
        assert_eq!(lines[0], head);
        let at = |line: u32| format!("{file}:{line}");
        let width = at(made).len();
        let wanted = format!(
            "  receiver     unread  lag  lost  {:width$}  {:width$}  call  waits",
            "created at", "received at"
        );
        assert_eq!(lines[1], wanted);
        let wanted = format!(
            "  the \"chart\"       1    0     1  {}  {}     5  -",
            at(made),
            at(received)
        );
        assert_eq!(lines[2], wanted);
        let wanted = format!(
            "  receiver 2        0    0     0  {}  {:width$}     -  recv at {} for ",
            at(received + 1),
            "-",
            at(waits)
        );
        let seconds = lines[3].strip_prefix(&wanted);
        let seconds = seconds.and_then(|rest| rest.strip_suffix(" s, since call 6"));
        assert!(seconds.unwrap().parse::<f64>().unwrap() >= 0.0, "{text}");
        assert_eq!(lines.len(), 4);
    });
    let (made, alone) = (line!(), watch::Sender::new(1));
    let wanted = format!(
        "channel at {}:{made}: watch, sent 0, retained 1, senders 1\n  no receivers\n",
        file!()
    );
    assert_eq!(ChannelSnapshot::of(&alone).to_string(), wanted);
}

#[test]
fn a_program_reads_json() {
    two_receivers(|recorder, [made, sent, received, waits]| {
        let json = recorder.snapshot().to_json();
        // The columns of places, and the seconds, are left out.
        let file = file!().replace('\\', "\\\\");
        let wanted = [
            "{\"channels\": [\n  {\"name\": \"prices\"".to_string(),
            format!(r#""made_at": ["{file}", {made}, "#),
            r#""capacity": 2, "sent": 3, "retained": 1, "senders": 1, "weak_senders": 0, "sender": "exchange""#.to_string(),
            format!(r#""sent_at": ["{file}", {sent}, "#),
            r#""sent_call": 3, "sent_time": null, "receivers": [{"name": "the \"chart\"""#.to_string(),
            r#""unread": 1, "lag": 0, "lost": 1"#.to_string(),
            format!(r#""received_at": ["{file}", {received}, "#),
            r#""received_call": 5, "received_time": null, "waits": null, "woken": null}, {"name": "receiver 2""#.to_string(),
            r#""unread": 0, "lag": 0, "lost": 0, "received_at": null, "received_call": null, "received_time": null, "waits": {"call": "recv", "at": "#.to_string(),
            format!(r#"["{file}", {waits}, "#),
            r#""since": 6, "seconds": "#.to_string(),
        ];
        let mut rest = &*json;
        for part in wanted {
            let start = rest
                .find(&part)
                .unwrap_or_else(|| panic!("{part} in {rest}"));
            rest = &rest[start + part.len()..];
        }
        let seconds = rest.strip_suffix("}, \"woken\": null}]}\n]}\n");
        assert!(seconds.unwrap().parse::<f64>().unwrap() >= 0.0, "{rest}");
        let channel = recorder.snapshot().channels()[0].to_json();
        assert_eq!(
            (
                channel.starts_with(r#"{"name": "prices""#),
                channel.ends_with("}, \"woken\": null}]}")
            ),
            (true, true)
        );
    });
    assert_eq!(Recorder::new().snapshot().to_json(), "{\"channels\": []}\n");
}

#[test]
fn receivers_that_were_woken_no_longer_wait_and_say_in_which_call() {
    let recorder = Recorder::new();
    let _entered = recorder.enter();
    let (prices, mut chart) = broadcast::channel(4);
    let (mut audit, mut late) = (prices.subscribe(), prices.subscribe());
    let (chart_at, mut chart_recv) = (line!(), pin!(chart.recv()));
    let (audit_at, mut audit_recv) = (line!(), pin!(audit.recv()));
    let mut context = Context::from_waker(Waker::noop());
    assert!(chart_recv.as_mut().poll(&mut context).is_pending());
    assert!(audit_recv.as_mut().poll(&mut context).is_pending());
    // One send wakes both.
    prices.send(101).unwrap();
    assert_eq!(late.try_recv(), Ok(101));
    let mut late_recv = pin!(late.recv());
    assert!(late_recv.as_mut().poll(&mut context).is_pending());
    let said = || {
        let channel = ChannelSnapshot::of(&prices);
        let receivers = channel.receivers().iter();
        let said = receivers.map(|it| {
            (
                it.waits_in(),
                it.woken_in(),
                it.woken_at().map(|at| at.line()),
            )
        });
        said.collect::<Vec<_>>()
    };
    let woken = |at| (None, Some("recv"), Some(at));
    let waits = (Some("recv"), None, None);
    assert_eq!(said(), [woken(chart_at), woken(audit_at), waits]);
    let table = ChannelSnapshot::of(&prices).to_string();
    let cell = format!("  woken in recv at {}:{chart_at} for ", file!());
    assert!(table.lines().nth(2).unwrap().contains(&cell), "{table}");
    let json = ChannelSnapshot::of(&prices).to_json();
    assert_eq!(
        json.matches(r#""waits": null, "woken": {"call": "recv", "at": ["#)
            .count(),
        2
    );
    // Who is polled goes on, and the other is still to be polled.
    assert!(chart_recv.as_mut().poll(&mut context).is_ready());
    assert_eq!(said(), [(None, None, None), woken(audit_at), waits]);
}
