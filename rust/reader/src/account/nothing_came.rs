//! Why a receiver has nothing to receive: nothing was sent, it came before the receiver was
//! created, or nobody was there for it.

use super::Context;
use super::fact::{FactStep, Role};
use super::history::Unreached;
use super::reading::{self, Skipped};
use super::silence::last_sent;
use yovanelum_record::journal::Spec;
use yovanelum_record::visible;

/// Why a receiver has nothing to receive.
pub(super) struct NothingCame {
    channel: u32,
    receiver: u32,
    /// The place of the last send or change before the call, or 0.
    pub(super) sent: u64,
    // Where the receiver was created.
    made: u64,
    // The sends that reached nobody, if they came before it.
    unreached: Option<Unreached>,
    // What it skipped, if `resubscribe` created it.
    skipped: Option<Skipped>,
}

impl NothingCame {
    /// Why the receiver of a channel has nothing at a place.
    pub(super) fn of(
        context: &Context<'_>,
        (channel, receiver): (u32, u32),
        at: u64,
    ) -> NothingCame {
        let history = context.history.channel(channel);
        let made = history.handle(receiver).map_or(0, |handle| handle.made);
        let is_broadcast = matches!(context.run.specs()[channel as usize], Spec::Broadcast(_));
        let skipped = is_broadcast.then(|| reading::skipped(context, (channel, receiver), at));
        NothingCame {
            channel,
            receiver,
            sent: last_sent(context, channel, at),
            made,
            unreached: history.unreached.filter(|sends| sends.last < made),
            skipped: skipped.flatten(),
        }
    }

    /// The last send before the receiver was created, if none came since.
    fn early(&self) -> Option<u64> {
        let unreached = self.unreached.map_or(0, |sends| sends.last);
        let last = self.sent.max(unreached);
        (last > 0 && last < self.made).then_some(last)
    }

    /// The sends that reached nobody, if nothing else came before the receiver since.
    fn reached_nobody(&self) -> Option<Unreached> {
        let early = self.early()?;
        self.unreached.filter(|sends| sends.last == early)
    }

    pub(super) fn text(&self, context: &Context<'_>) -> String {
        let channel = context.naming.channel(self.channel);
        let receiver = context.naming.receiver(self.channel, self.receiver).short;
        let is_watch = matches!(context.run.specs()[self.channel as usize], Spec::Watch(_));
        if let Some(skipped) = self.skipped.as_ref().filter(|_| self.early().is_some()) {
            return skipped.text(context, self.channel);
        }
        if let Some(sends) = self.reached_nobody() {
            let sends = visible::sends(sends.count);
            let made = visible::call(self.made);
            return format!("{sends} reached nobody, before {receiver} was created ({made})");
        }
        if let Some(early) = self.early() {
            let early = visible::call(early);
            let what = if is_watch { "change" } else { "value" };
            return format!("the last {what} came before {receiver} was created ({early})");
        }
        let sent = visible::call(self.sent);
        match self.sent {
            0 if is_watch => format!("{channel} was never changed"),
            0 => format!("nothing was sent to {channel}"),
            _ if is_watch => format!("{channel} wasn't changed since {sent}"),
            _ => format!("nothing was sent to {channel} since {sent}"),
        }
    }

    /// The sends that came too early, and where the receiver was created.
    pub(super) fn calls(&self) -> Vec<(u64, Role, &'static str)> {
        let Some(early) = self.early() else {
            return vec![];
        };
        if let Some(skipped) = &self.skipped {
            return vec![(skipped.place, Role::Begin, "skipped what was not read")];
        }
        let mut calls = match self.reached_nobody() {
            Some(sends) if sends.count > 1 => vec![
                (sends.first, Role::Sent, "reached nobody"),
                (early, Role::Sent, "the last that reached nobody"),
            ],
            Some(_) => vec![(early, Role::Sent, "reached nobody")],
            None => vec![(early, Role::Sent, "came before it was created")],
        };
        calls.push((self.made, Role::Begin, "created it"));
        calls
    }

    /// The same as steps of a fact.
    pub(super) fn steps(&self, context: &Context<'_>) -> impl Iterator<Item = FactStep> {
        let calls = self.calls().into_iter();
        calls.map(|(place, role, said)| context.call_step(place, role, said.to_string()))
    }
}
