//! A snapshot as JSON.

use super::{ChannelSnapshot, NumberedCall, ReceiverSnapshot, Snapshot, Waits};
use crate::channels::channel::CallSite;
use yovanelum_record::clock::iso;
use yovanelum_record::listed::IntoList;
use yovanelum_record::sidecar::Json;

impl Snapshot {
    /// Returns the snapshot as JSON: an object whose member `channels` has the channels, in the
    /// order of their creation, each on a line of its own.
    ///
    /// The members of a channel and of its `receivers` have the names of the methods. A place in
    /// the source is a list of its file, line and column, and a time a text such as
    /// `2026-11-29T03:12:45.120Z`. What isn't known, or isn't there, is
    /// `null`. `waits` is `null` or an object with the `call`, the place `at`, the stamp `since`,
    /// and how many `seconds` it has waited; and so is `woken`, of a call that was woken and has
    /// not gone on since, with the `seconds` since it began to wait.
    ///
    /// # Examples
    ///
    /// ```
    /// use yovanelum::{Recorder, broadcast};
    ///
    /// let recorder = Recorder::new();
    /// let _entered = recorder.enter();
    /// let (prices, chart) = broadcast::channel(2);
    /// recorder.name(&prices, "prices").name(&chart, "chart");
    /// prices.send(101).unwrap();
    /// let json = recorder.snapshot().to_json();
    /// assert!(json.contains(r#""capacity": 2, "sent": 1, "retained": 1, "senders": 1, "weak_senders": 0"#));
    /// assert!(json.contains(r#""unread": 1, "lag": 0, "lost": 0, "received_at": null, "received_call": null, "received_time": null, "waits": null"#));
    /// ```
    pub fn to_json(&self) -> String {
        let mut out = "{\"channels\": [".to_string();
        for (index, channel) in self.channels.iter().enumerate() {
            out.push_str(if index > 0 { ",\n  " } else { "\n  " });
            channel.json().push(&mut out);
        }
        out.push_str(if self.channels.is_empty() {
            "]}\n"
        } else {
            "\n]}\n"
        });
        out
    }
}

impl ChannelSnapshot {
    /// Returns the channel as JSON, on one line: what [`Snapshot::to_json`] has for it.
    ///
    /// # Examples
    ///
    /// ```
    /// use yovanelum::{ChannelSnapshot, Recorder, watch};
    ///
    /// let (config, _server) = watch::channel("v1");
    /// Recorder::off().name(&config, "config");
    /// let json = ChannelSnapshot::of(&config).to_json();
    /// assert!(json.starts_with(r#"{"name": "config", "made_at": ["#));
    /// ```
    pub fn to_json(&self) -> String {
        let mut out = String::new();
        self.json().push(&mut out);
        out
    }

    fn json(&self) -> Json {
        Json::object(vec![
            ("name", Json::text(&self.name)),
            ("made_at", place(self.made_at)),
            ("capacity", number(self.capacity)),
            ("sent", Json::number(self.sent)),
            ("retained", Json::number(self.retained)),
            ("senders", Json::number(self.senders)),
            ("weak_senders", Json::number(self.weak_senders)),
            (
                "sender",
                self.sender.as_deref().map_or(Json::Null, Json::text),
            ),
            ("sent_at", place(self.sent_at)),
            ("sent_call", number(self.sent_call())),
            ("sent_time", time(self.sent_last)),
            (
                "receivers",
                Json::List(self.receivers.iter().map(receiver).listed()),
            ),
        ])
    }
}

fn receiver(receiver: &ReceiverSnapshot) -> Json {
    Json::object(vec![
        ("name", Json::text(&receiver.name)),
        ("made_at", place(receiver.made_at)),
        ("unread", Json::number(receiver.unread)),
        ("lag", Json::number(receiver.lag)),
        ("lost", Json::number(receiver.lost)),
        ("received_at", place(receiver.received_at)),
        ("received_call", number(receiver.received_call())),
        ("received_time", time(receiver.received)),
        ("waits", receiver.waits.as_ref().map_or(Json::Null, waits)),
        ("woken", receiver.woken.as_ref().map_or(Json::Null, waits)),
    ])
}

fn waits(waits: &Waits) -> Json {
    Json::object(vec![
        ("call", Json::text(waits.call)),
        ("at", place(waits.called_at)),
        ("since", number(waits.since)),
        (
            "seconds",
            number(waits.waited.map(|waited| waited.as_secs_f64())),
        ),
    ])
}

fn time(call: Option<NumberedCall>) -> Json {
    let wall = call.and_then(|call| call.wall);
    wall.map_or(Json::Null, |wall| Json::text(&iso(wall)))
}

fn number(number: Option<impl std::fmt::Display>) -> Json {
    number.map_or(Json::Null, Json::number)
}

fn place(at: CallSite) -> Json {
    at.map_or(Json::Null, |at| {
        Json::List(vec![
            Json::text(at.file()),
            Json::number(at.line()),
            Json::number(at.column()),
        ])
    })
}
