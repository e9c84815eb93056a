//! What is found in a run, in the order in which it is told.

use super::asked::Answered;
use super::closings::Closed;
use super::losses::Lost;
use super::panicked::Panicked;
use super::silence::Silence;
use super::watches::{Overlooked, Unreceived};
use super::{Context, Fact, MOST_TOLD, asked, closings, losses, panicked, silence, watches};
use yovanelum_record::listed::{IntoList, PushAll};

/// Puts findings in the order of their rules. Those of one rule stay in theirs. A sort of so large
/// things would be a good part of the page's engine.
fn in_order(all: Vec<Finding>) -> Vec<Finding> {
    let mut sorted = Vec::with_capacity(all.len());
    let mut left: Vec<_> = all.into_iter().map(Some).listed();
    for order in orders::PANIC..=orders::ENDED {
        for finding in &mut left {
            if finding.as_ref().is_some_and(|it| it.order() == order) {
                sorted.push_all(finding.take());
            }
        }
    }
    sorted
}

/// The numbers of the rules by which facts are ordered. `docs/use/ACCOUNT.md` has them.
pub(super) mod orders {
    /// Another thread or task panicked, and the failure came of it.
    pub(in super::super) const PANIC: u8 = 1;
    /// What the last call of who failed was told.
    pub(in super::super) const LAST_CALL: u8 = 2;
    /// A call waited that the failure came of.
    pub(in super::super) const WAITED: u8 = 3;
    /// Another thread or task panicked before.
    pub(in super::super) const EARLIER_PANIC: u8 = 4;
    /// A loss that who failed was told last.
    pub(in super::super) const LOSS_OF_FAILED: u8 = 5;
    /// The value that the last call of who failed returned, or what it was answered.
    pub(in super::super) const LAST_VALUE: u8 = 6;
    pub(in super::super) const LOSS_TOLD: u8 = 7;
    pub(in super::super) const LOSS_UNTOLD: u8 = 8;
    /// Sends reached nobody.
    pub(in super::super) const UNREACHED: u8 = 9;
    /// What the last call of who failed was told, where the failure names something else.
    pub(in super::super) const REFUSED_BEFORE: u8 = 10;
    /// A receiver of a watch never learned of changes.
    pub(in super::super) const UNLEARNED: u8 = 11;
    pub(in super::super) const UNMARKED: u8 = 12;
    /// What lost or missed something was never used, or had ended.
    pub(in super::super) const UNUSED: u8 = 13;
    /// A channel closed that had carried nothing, or of which a receiver wasn't told.
    pub(in super::super) const CLOSED: u8 = 14;
    /// What the last call of who failed returned, where nothing says that it is why.
    pub(in super::super) const OTHER_VALUE: u8 = 15;
    /// A channel closed once it had carried something, and each receiver was told: so streams end.
    pub(in super::super) const ENDED: u8 = 16;
}

/// How many facts are told in full where the first says what failed.
const MOST_WHY: usize = 2;

/// What is found of a receiver or a channel, without words.
pub(super) enum Finding {
    Panic(Panicked),
    Loss(Lost),
    Silence(Silence),
    Answered(Answered),
    Overlooked(Overlooked),
    Closing(Closed),
}

impl Finding {
    /// Returns what is found, by the rules of the order. Of one rule they come in their own order.
    pub(super) fn all(context: &Context<'_>) -> Vec<Finding> {
        let panicked = panicked::found(context);
        let closed = panicked.as_ref().and_then(|it| it.closed_channel(context));
        let closings = closings::found(context).into_iter();
        // A panic tells of the channel that it closed.
        let closings = closings.filter(|it| Some(it.channel()) != closed);
        let losses = losses::found(context).into_iter();
        let silences = silence::found(context);
        let asked = asked::found(context);
        let watches = watches::found(context).into_iter();
        let watches = watches.filter(|it| {
            let (mut asked, mut silences) = (asked.iter(), silences.iter());
            let is_told = it.what == Unreceived::Looked
                && it.count == 1
                && silences.any(|silence| silence.tells_of_mark(context, it.receiver()));
            !is_told && !asked.any(|asked| asked.tells_of(context, it.receiver()))
        });
        let watches: Vec<_> = watches.map(Finding::Overlooked).listed();
        let mut all = panicked.into_iter().map(Finding::Panic).listed();
        all.push_all(losses.map(Finding::Loss));
        all.push_all(silences.into_iter().map(Finding::Silence));
        all.push_all(asked.map(Finding::Answered));
        all.push_all(watches);
        all.push_all(closings.map(Finding::Closing));
        in_order(all)
    }

    /// The number of the rule that orders it.
    pub(super) fn order(&self) -> u8 {
        match self {
            Finding::Panic(panicked) if panicked.is_cause() => orders::PANIC,
            Finding::Panic(_) => orders::EARLIER_PANIC,
            Finding::Loss(lost) => lost.order(),
            Finding::Silence(silence) => silence.order(),
            Finding::Answered(answered) => answered.order(),
            Finding::Overlooked(overlooked) => overlooked.order(),
            Finding::Closing(closed) => closed.order(),
        }
    }

    /// Returns how many of these, which are in their order, are told in full: the first three.
    /// Where the first says what failed, the others are told only if they do too, and two are
    /// enough. What was never used is told only if nothing else was found, then a close that failed
    /// nobody, and then one that ends a stream.
    pub(super) fn told_in_full(found: &[Finding]) -> usize {
        let says_why = found
            .first()
            .is_some_and(|first| first.order() <= orders::LAST_VALUE);
        let (last_order, most) = if says_why {
            (orders::LAST_VALUE, MOST_WHY)
        } else {
            (orders::UNUSED - 1, MOST_TOLD)
        };
        let first = found.first().map_or(last_order, Finding::order);
        let last_order = last_order.max(first);
        let count = found.partition_point(|finding| finding.order() <= last_order);
        count.min(most)
    }

    /// Puts it into words.
    pub(super) fn fact(&self, context: &Context<'_>) -> Fact {
        let fact = match self {
            Finding::Panic(panicked) => panicked::fact(context, panicked),
            Finding::Loss(lost) => losses::fact(context, lost),
            Finding::Silence(silence) => silence::fact(context, silence),
            Finding::Answered(asked) => asked::fact(context, asked),
            Finding::Overlooked(overlooked) => watches::fact(context, overlooked),
            Finding::Closing(closed) => closings::fact(context, closed),
        };
        Fact {
            order: self.order(),
            ..fact
        }
    }
}
