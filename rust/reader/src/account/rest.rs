//! The facts that a report doesn't tell in full, counted by kind.

use super::finding::Finding;
use super::silence::Silence;
use super::watches::Unreceived;
use yovanelum_record::visible::counted;

/// How many receivers or channels there are of a kind, and how many values or changes they have
/// together.
#[derive(Clone, Copy, Debug, Default)]
pub(super) struct KindCount {
    /// How many were told in full.
    told: u64,
    pub(super) of: u64,
    pub(super) sum: u64,
}

impl KindCount {
    fn add(&mut self, is_told: bool, sum: u64) {
        if is_told {
            self.told += 1
        } else {
            self.of += 1;
            self.sum += sum;
        }
    }

    /// Returns how many more there are, or just how many if none was told in full.
    fn subject(&self, thing: &str) -> String {
        match self.told {
            0 => counted(self.of, thing),
            _ => counted(self.of, &format!("more {thing}")),
        }
    }

    /// The same, of receivers of watches.
    fn readers(&self) -> String {
        let more = if self.told > 0 { "more " } else { "" };
        match self.of {
            1 => format!("1 {more}watch's reader"),
            count => format!("{count} {more}watches' readers"),
        }
    }
}

/// The facts beyond those that are told in full.
#[derive(Debug, Default)]
pub struct Rest {
    /// How many facts are told in full.
    pub after: usize,
    pub(super) losses: KindCount,
    pub(super) unlearned: KindCount,
    pub(super) unlooked: KindCount,
    pub(super) unmarked: KindCount,
    pub(super) closings: KindCount,
    panics: KindCount,
    waits: KindCount,
    unreached: KindCount,
}

impl Rest {
    pub(super) fn of(found: &[Finding]) -> Rest {
        let mut rest = Rest {
            after: Finding::told_in_full(found),
            ..Rest::default()
        };
        for (index, finding) in found.iter().enumerate() {
            let is_told = index < rest.after;
            let (count, sum) = match finding {
                Finding::Loss(lost) => (&mut rest.losses, lost.count),
                Finding::Closing(_) => (&mut rest.closings, 0),
                Finding::Silence(Silence::Unreached(_, sends, _)) => {
                    (&mut rest.unreached, sends.count)
                }
                Finding::Silence(_) => (&mut rest.waits, 0),
                Finding::Panic(_) => (&mut rest.panics, 0),
                // It is the only one of its order, and told.
                Finding::Answered(_) => continue,
                Finding::Overlooked(it) if it.what == Unreceived::Learned => {
                    (&mut rest.unlearned, it.count)
                }
                Finding::Overlooked(it) if it.what == Unreceived::Looked => {
                    (&mut rest.unlooked, it.count)
                }
                Finding::Overlooked(it) => (&mut rest.unmarked, it.count),
            };
            count.add(is_told, sum);
        }
        rest
    }

    /// Returns a line that counts them, if there are any.
    pub fn text(&self) -> Option<String> {
        let Rest {
            losses,
            unlearned,
            unlooked,
            unmarked,
            closings,
            panics,
            waits,
            unreached,
            ..
        } = self;
        let mut parts = vec![];
        if panics.of > 0 {
            parts.push(format!("{} panicked before", panics.subject("task")));
        }
        if waits.of > 0 {
            parts.push(format!("{} got nothing", waits.subject("call")));
        }
        if unreached.of > 0 {
            let sends = counted(unreached.sum, "send");
            let channels = unreached.subject("channel");
            parts.push(format!("{sends} of {channels} reached nobody"));
        }
        if losses.of > 0 {
            let receivers = losses.subject("receiver");
            parts.push(format!("{receivers} lost {}", counted(losses.sum, "value")));
        }
        if unlearned.of > 0 {
            let changes = counted(unlearned.sum, "change");
            parts.push(format!(
                "{} never learned of {changes}",
                unlearned.readers()
            ));
        }
        if unlooked.of > 0 {
            let changes = counted(unlooked.sum, "change");
            let readers = unlooked.readers();
            parts.push(format!("{readers} marked {changes} as seen without a look"));
        }
        if unmarked.of > 0 {
            let changes = counted(unmarked.sum, "change");
            let readers = unmarked.readers();
            parts.push(format!("{readers} never marked {changes} as seen"));
        }
        if closings.of > 0 {
            parts.push(format!("{} closed", closings.subject("channel")));
        }
        (!parts.is_empty()).then(|| format!("and {}", parts.join(", ")))
    }
}
