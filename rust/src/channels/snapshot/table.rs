//! A snapshot as a table that a person reads.

use super::{ChannelSnapshot, NumberedCall, ReceiverSnapshot, Snapshot, Waits};
use crate::channels::channel::CallSite;
use std::fmt;
use yovanelum_record::clock::utc;
use yovanelum_record::listed::{IntoList, PushAll};

/// The heads of the columns. Those of numbers are on the right.
const HEADS: [&str; 8] = [
    "receiver",
    "unread",
    "lag",
    "lost",
    "created at",
    "received at",
    "call",
    "waits",
];

/// The columns of numbers.
const NUMBERS: [usize; 4] = [1, 2, 3, 6];

type Row = Vec<String>;

impl fmt::Display for Snapshot {
    /// Formats the channels one below the other.
    fn fmt(&self, f: &mut fmt::Formatter<'_>) -> fmt::Result {
        self.channels
            .iter()
            .try_for_each(|channel| write!(f, "{channel}"))
    }
}

impl fmt::Display for ChannelSnapshot {
    /// Formats a line for the channel, and below it a table of its receivers.
    fn fmt(&self, f: &mut fmt::Formatter<'_>) -> fmt::Result {
        write!(f, "{}: ", self.name)?;
        match self.capacity {
            Some(capacity) => write!(f, "broadcast, capacity {capacity}")?,
            None => write!(f, "watch")?,
        }
        let (sent, retained, senders) = (self.sent, self.retained, self.senders);
        write!(f, ", sent {sent}, retained {retained}, senders {senders}")?;
        if self.weak_senders > 0 {
            write!(f, ", weak senders {}", self.weak_senders)?;
        }
        if let Some(sender) = &self.sender {
            write!(f, ", last sent by {sender} at {}", place(self.sent_at))?;
            if let Some(call) = self.sent_last {
                write!(f, ", call {call}")?;
            }
        }
        writeln!(f)?;
        if self.receivers.is_empty() {
            return writeln!(f, "  no receivers");
        }
        let mut rows = vec![HEADS.iter().map(|head| head.to_string()).listed()];
        rows.push_all(self.receivers.iter().map(row));
        fmt_rows(&rows, f)
    }
}

impl fmt::Display for NumberedCall {
    /// Formats it as `67108867 at 2026-11-29 03:12:45.120 UTC`.
    fn fmt(&self, f: &mut fmt::Formatter<'_>) -> fmt::Result {
        write!(f, "{}", self.stamp)?;
        self.wall
            .map_or(Ok(()), |wall| write!(f, " at {} UTC", utc(wall)))
    }
}

fn row(receiver: &ReceiverSnapshot) -> Row {
    let received = receiver.received.map(|call| call.to_string());
    vec![
        receiver.name.clone(),
        receiver.unread.to_string(),
        receiver.lag.to_string(),
        receiver.lost.to_string(),
        place(receiver.made_at),
        place(receiver.received_at),
        received.unwrap_or_else(|| "-".to_string()),
        waits(receiver),
    ]
}

/// The call that waits, or that was woken and has not gone on since.
fn waits(receiver: &ReceiverSnapshot) -> String {
    match (&receiver.waits, &receiver.woken) {
        (Some(waits), _) => call(waits),
        (None, Some(woken)) => format!("woken in {}", call(woken)),
        (None, None) => "-".to_string(),
    }
}

fn call(waits: &Waits) -> String {
    let waited = waits
        .waited
        .map(|waited| format!(" for {:.1} s", waited.as_secs_f64()));
    let since = waits.since.map(|since| format!(", since call {since}"));
    format!(
        "{} at {}{}{}",
        waits.call,
        place(waits.called_at),
        waited.unwrap_or_default(),
        since.unwrap_or_default()
    )
}

fn place(at: CallSite) -> String {
    at.map_or("-".to_string(), |at| format!("{}:{}", at.file(), at.line()))
}

fn fmt_rows(rows: &[Row], f: &mut fmt::Formatter<'_>) -> fmt::Result {
    let width = |column: usize| rows.iter().map(|row| row[column].chars().count()).max();
    let columns = 0..HEADS.len();
    let widths: Vec<_> = columns.map(|column| width(column).unwrap_or(0)).listed();
    for row in rows {
        let mut line = String::new();
        for (column, (text, &width)) in row.iter().zip(&widths).enumerate() {
            if NUMBERS.contains(&column) {
                line.push_str(&format!("  {text:>width$}"))
            } else {
                line.push_str(&format!("  {text:<width$}"))
            }
        }
        writeln!(f, "{}", line.trim_end())?;
    }
    Ok(())
}
