//! What the names say of a journal that has the last calls of its channels: how it begins, and when
//! its calls were made.

use super::json::Json;
use super::reading::{by_number, list, members, number, optional, optional_text, text_of};
use super::{
    Sidecar, push_items, push_list, push_number, push_object, push_optional, push_some, push_string,
};
use crate::clock::Moment;
use crate::numbered::NumberMap;
use std::fmt::Write;

/// The beginning of a journal whose channels have lost their first calls.
#[derive(Clone, Debug, Default, PartialEq, Eq)]
pub struct WindowNames {
    /// What called for the dump: `lag`, `close`, `panic`, `call` or `limit`.
    pub trigger: String,
    /// The same in words.
    pub reason: String,
    /// When that was, in milliseconds since 1970.
    pub at: Option<u64>,
    /// How many entries the leads of all channels have. They are the first ones.
    pub lead: u64,
    pub channels: NumberMap<u64, ChannelWindow>,
}

/// How the window of a channel begins.
#[derive(Clone, Debug, Default, PartialEq, Eq)]
pub struct ChannelWindow {
    /// How many of its entries lead to the window. Nobody has made those calls.
    pub lead: u64,
    /// How many calls were made before the window.
    pub calls: u64,
    /// How many values were sent before it, on a broadcast.
    pub sent: Option<u64>,
    /// By the journal's number of each handle: how many handles the channel had created before it.
    /// `None` stands for one that only the lead has.
    pub handles: Vec<Option<u64>>,
    /// How many values a receiver had really lost when the window began, where the journal says
    /// less.
    pub lags: NumberMap<u64, u64>,
}

impl Sidecar {
    /// How many entries of the journal lead to its window. It is 0 where there is none.
    pub fn lead(&self) -> u64 {
        self.window.as_ref().map_or(0, |window| window.lead)
    }

    /// Returns how the window of a channel begins. Returns `None` where all its calls are there.
    pub fn window_of(&self, channel: u32) -> Option<&ChannelWindow> {
        let channels = &self.window.as_ref()?.channels;
        channels.get(&channel.into()).filter(|it| it.lead > 0)
    }

    /// Returns the real number of a handle. One that is only in the lead has none.
    pub fn real_number(&self, channel: u32, handle: u32) -> Option<u64> {
        let window = self.window.as_ref();
        let channel = window.and_then(|window| window.channels.get(&channel.into()));
        let number = channel.and_then(|channel| channel.handles.get(handle as usize));
        number.map_or(Some(handle.into()), |number| *number)
    }

    /// Returns the number by which texts call a handle: its real one.
    pub fn handle_number(&self, channel: u32, handle: u64) -> String {
        let window = self.window.as_ref();
        let channel = window.and_then(|window| window.channels.get(&channel.into()));
        let number = channel.and_then(|channel| channel.handles.get(handle as usize));
        match number {
            Some(Some(number)) => number.to_string(),
            Some(None) => format!("{handle} of the lead"),
            None => handle.to_string(),
        }
    }
}

/// Appends the window and the times, unless there are none.
pub(super) fn push(out: &mut String, window: Option<&WindowNames>, times: &[Moment]) {
    push_some(out, "window", window, |out, window| {
        out.push('{');
        window.push_members(out);
        out.push('}');
    });
    push_items(out, "times", times, push_moment);
}

impl WindowNames {
    /// Appends its members, on one line.
    pub fn push_members(&self, out: &mut String) {
        out.push_str("\"trigger\": ");
        push_string(out, &self.trigger);
        out.push_str(", \"reason\": ");
        push_string(out, &self.reason);
        out.push_str(", \"at\": ");
        push_optional(out, &self.at);
        let _ = write!(out, ", \"lead\": {}, \"channels\": ", self.lead);
        push_object(out, &self.channels, push_channel);
    }
}

fn push_channel(out: &mut String, channel: &ChannelWindow) {
    let ChannelWindow { lead, calls, .. } = channel;
    let _ = write!(out, "{{\"lead\": {lead}, \"calls\": {calls}, \"sent\": ");
    push_optional(out, &channel.sent);
    out.push_str(", \"handles\": ");
    push_list(out, &channel.handles, push_optional);
    out.push_str(", \"lags\": ");
    push_object(out, &channel.lags, push_number);
    out.push('}');
}

fn push_moment(out: &mut String, moment: &Moment) {
    let (stamp, wall, since_start) = (moment.stamp, moment.wall, moment.since_start);
    let _ = write!(out, "[{stamp}, {wall}, {since_start}]");
}

/// Reads a window.
pub(super) fn window(value: Json) -> Result<WindowNames, String> {
    let mut next = members(value)?;
    Ok(WindowNames {
        trigger: text_of(next("trigger"))?,
        reason: optional_text(next("reason"))?.unwrap_or_default(),
        at: optional(next("at"))?,
        lead: number(next("lead"))?,
        channels: by_number(next("channels"), channel)?,
    })
}

fn channel(value: Json) -> Result<ChannelWindow, String> {
    let mut next = members(value)?;
    Ok(ChannelWindow {
        lead: number(next("lead"))?,
        calls: number(next("calls"))?,
        sent: optional(next("sent"))?,
        handles: list(next("handles"), optional)?,
        lags: match next("lags") {
            Json::Null => NumberMap::new(),
            lags => by_number(lags, number)?,
        },
    })
}

/// Reads the times of calls.
pub(super) fn times(value: Json) -> Result<Vec<Moment>, String> {
    list(value, |moment| {
        let mut parts = list(moment, number)?.into_iter();
        let mut next = || parts.next().ok_or("a time has three numbers");
        Ok(Moment {
            stamp: next()?,
            wall: next()?,
            since_start: next()?,
        })
    })
}

#[cfg(test)]
mod tests {
    use super::*;
    use crate::sidecar::tests::written_and_read;

    fn example() -> Sidecar {
        let prices = ChannelWindow {
            lead: 113,
            calls: 5_000_123,
            sent: Some(4_999_900),
            handles: vec![Some(0), Some(41), None],
            lags: [(1, 5_000_000)].into(),
        };
        let settings = ChannelWindow {
            lead: 4,
            ..ChannelWindow::default()
        };
        Sidecar {
            window: Some(WindowNames {
                trigger: "lag".into(),
                reason: "`audit` lost \"84\" values".into(),
                at: Some(1_795_930_965_120),
                lead: 117,
                channels: [(0, prices), (1, settings)].into(),
            }),
            callers: [(0, [(113, 64)].into())].into(),
            times: vec![Moment {
                stamp: 67_108_865,
                wall: 1_795_930_961_120,
                since_start: 17_000_250,
            }],
            ..Sidecar::default()
        }
    }

    #[test]
    fn handles_are_called_by_their_real_numbers() {
        let names = example();
        let numbers = [0, 1, 2, 3].map(|handle| names.handle_number(0, handle));
        assert_eq!(numbers, ["0", "41", "2 of the lead", "3"]);
        assert_eq!(names.handle_number(7, 3), "3");
        assert_eq!(Sidecar::default().handle_number(0, 1), "1");
        assert_eq!((names.lead(), Sidecar::default().lead()), (117, 0));
    }

    #[test]
    fn what_is_wrong_is_said_with_its_key() {
        let json = example().to_json();
        for (part, wrong, fault) in [
            ("\"lag\"", "1", "its `window`: no text"),
            (
                "\"lead\": 117",
                "\"lead\": -1",
                "its `window`: no number, or one that is too great",
            ),
            (
                "\"at\": 1795930965120",
                "\"at\": \"today\"",
                "its `window`: no number, or one that is too great",
            ),
            (
                "\"1\": {\"lead\"",
                "\"x\": {\"lead\"",
                "its `window`: `x` is no number",
            ),
            ("[0, 41, null]", "{}", "its `window`: no list"),
        ] {
            let text = json.replacen(part, wrong, 1);
            assert_eq!(Sidecar::read(&text), Err(fault.to_string()), "{text}");
        }
    }

    #[test]
    fn a_window_has_a_version_of_its_own_and_is_on_one_line() {
        let wanted = r#"{
  "version": 4,
  "actors": {},
  "channels": {},
  "values": {},
  "callers": {"0": {"113": 64}},
  "window": {"trigger": "lag", "reason": "`audit` lost \"84\" values", "at": 1795930965120, "lead": 117, "channels": {"0": {"lead": 113, "calls": 5000123, "sent": 4999900, "handles": [0, 41, null], "lags": {"1": 5000000}}, "1": {"lead": 4, "calls": 0, "sent": null, "handles": [], "lags": {}}}},
  "times": [[67108865, 1795930961120, 17000250]]
}
"#;
        assert_eq!(example().to_json(), wanted);
    }

    #[test]
    fn what_is_written_is_read() {
        let json = written_and_read(example());
        let later = json.replace("\"version\": 4", "\"version\": 6");
        let refused = Sidecar::read(&later).unwrap_err();
        assert_eq!(
            refused,
            "its `version`: 6 is later than 5, the last one that this program reads"
        );
        let short = json.replace(", 17000250]", "]");
        let refused = Sidecar::read(&short).unwrap_err();
        assert_eq!(refused, "its `times`: a time has three numbers");
    }
}
