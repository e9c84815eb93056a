//! The closures of the process, which are called with events of channels that no recorder records.
//! They are set for all tests of this program, so the tests run one after the other.

#[path = "support/noted.rs"]
mod noted;

use noted::Noted;
use std::sync::{Mutex, MutexGuard, PoisonError};
use yovanelum::broadcast::error::TryRecvError;
use yovanelum::{Close, Lag, Recorder, broadcast, named};

static IN_TURN: Mutex<()> = Mutex::new(());

/// Sends these values.
fn send_each(prices: &broadcast::Sender<i32>, values: std::ops::Range<i32>) {
    for value in values {
        prices.send(value).unwrap();
    }
}

/// The closures of the process, noting what they are told while a test runs.
struct OfProcess {
    lags: Noted<Lag>,
    closed: Noted<Close>,
    _turn: MutexGuard<'static, ()>,
}

impl OfProcess {
    fn set() -> OfProcess {
        let turn = IN_TURN.lock().unwrap_or_else(PoisonError::into_inner);
        let (lags, closed) = (Noted::default(), Noted::default());
        yovanelum::on_lag(lags.noting());
        yovanelum::on_close(closed.noting());
        OfProcess {
            lags,
            closed,
            _turn: turn,
        }
    }

    /// How many lags and closings were noted since the last time.
    fn counts(&self) -> (usize, usize) {
        (self.lags.take().len(), self.closed.take().len())
    }
}

/// Lags once on a new channel, and closes it.
fn lag_and_close() {
    let (prices, mut chart) = broadcast::channel(1);
    send_each(&prices, 0..2);
    assert_eq!(chart.try_recv(), Err(TryRecvError::Lagged(1)));
}

#[test]
fn a_channel_that_nobody_records_tells_the_process() {
    let noted = OfProcess::set();
    let (made, (prices, mut chart)) = (line!(), broadcast::channel(2));
    Recorder::off()
        .name(&prices, "prices")
        .name(&chart, "chart");
    let feed = prices.clone();
    let task = named("feed", async move {
        send_each(&feed, 0..5);
        (line!(), feed.send(5).unwrap()).0
    });
    let sent = yovanelum::block_on(task);
    // The task has ended, and its name is still known.
    let (received, result) = (line!(), chart.try_recv());
    assert_eq!(result, Err(TryRecvError::Lagged(4)));
    let lag = &noted.lags.take()[0];
    assert_eq!(
        (lag.channel(), lag.receiver(), lag.capacity()),
        ("prices", "chart", 2)
    );
    assert_eq!((lag.lost(), lag.lost_in_all(), lag.unread()), (4, 4, 2));
    assert_eq!(lag.sender(), Some("feed"));
    let lines = [
        lag.channel_made_at(),
        lag.receiver_made_at(),
        lag.received_at(),
        lag.sent_at(),
    ];
    let lines = lines.map(|at| at.unwrap().line());
    assert_eq!(lines, [made, made, received, sent]);
    drop(prices);
    let close = &noted.closed.take()[0];
    assert_eq!(
        (
            close.channel(),
            close.sent(),
            close.receivers(),
            close.unread()
        ),
        ("prices", 6, 1, 2)
    );
}

#[test]
fn a_recorder_with_a_closure_of_its_own_tells_that_one_alone() {
    let noted = OfProcess::set();
    let (recorder, lags, closed) = (
        Recorder::new(),
        Noted::<Lag>::default(),
        Noted::<Close>::default(),
    );
    let entered = recorder.enter();
    lag_and_close();
    assert_eq!(noted.counts(), (1, 1), "the recorder has no closure");
    recorder.on_lag(lags.noting()).on_close(closed.noting());
    lag_and_close();
    assert_eq!(noted.counts(), (0, 0));
    assert_eq!((lags.take().len(), closed.take().len()), (1, 1));
    let off = Recorder::off();
    off.on_lag(lags.noting());
    let off = off.enter();
    lag_and_close();
    assert_eq!(
        (noted.counts(), lags.take().len()),
        ((1, 1), 0),
        "a channel of no recorder"
    );
    drop(off);
    let (prices, mut chart) = broadcast::channel(1);
    send_each(&prices, 0..2);
    drop((entered, recorder));
    assert!(chart.try_recv().is_err());
    assert_eq!(
        (noted.counts(), lags.take().len()),
        ((1, 0), 0),
        "the recorder is gone"
    );
}

#[test]
fn a_closure_of_the_process_that_is_set_later_replaces_the_first() {
    let noted = OfProcess::set();
    let later = Noted::<Lag>::default();
    yovanelum::on_lag(later.noting());
    lag_and_close();
    assert_eq!((noted.counts(), later.take().len()), ((0, 1), 1));
}

#[test]
fn a_closure_may_set_another_one_and_use_the_channel() {
    let noted = OfProcess::set();
    let (prices, mut chart) = broadcast::channel(1);
    let (sender, lags) = (prices.clone(), Noted::<Lag>::default());
    let note = Mutex::new(Some(lags.noting()));
    yovanelum::on_lag(move |lag| {
        sender.send(lag.lost() as i32).unwrap();
        if let Some(note) = note.lock().unwrap().take() {
            yovanelum::on_lag(note);
        }
    });
    send_each(&prices, 0..2);
    assert_eq!(chart.try_recv(), Err(TryRecvError::Lagged(1)));
    assert_eq!(
        chart.try_recv(),
        Err(TryRecvError::Lagged(1)),
        "the closure has sent"
    );
    assert_eq!(chart.try_recv(), Ok(1));
    assert_eq!((noted.counts().0, lags.take().len()), (0, 1));
}
