//! By what the choices of a run are made, and the text that names it.

use std::fmt;
use std::path::PathBuf;
use yovanelum_record::listed::{AllListed, IntoList};

/// By what the choices of a run are made. Its text names it, as `s12.1` or `p2.17.40`, and is read
/// again by [`Order::read`].
#[derive(Clone, Debug, PartialEq, Eq, Hash)]
pub(crate) struct Order {
    pub(crate) kind: OrderKind,
    /// Whether time is offered as a choice where a runtime waits for a timer. Else the test's own
    /// runtime is kept busy while tasks are held, so that a paused clock stands still.
    pub(crate) has_timers: bool,
}

/// The kinds of orders.
#[derive(Clone, Debug, PartialEq, Eq, Hash)]
pub(crate) enum OrderKind {
    /// Whoever went last goes on, and where it can't, the first by name. At these steps it is
    /// another one instead, by its number among those who stand.
    Steps(Vec<(u32, u32)>),
    /// Each with the same chance.
    Random(u64),
    /// The one with the highest priority, which changes at `depth - 1` of `steps` steps.
    Pct { depth: u32, seed: u64, steps: u32 },
    /// Partial-order sampling: each call has a priority of its own.
    Pos(u64),
    /// What brings the condition nearer that the test is explored for. In `steps` steps there are
    /// others to choose.
    Guided { seed: u64, steps: u32 },
    /// Those of a schedule's file, as far as they can be made.
    File(PathBuf),
}

impl Order {
    /// Returns the order that a text names.
    pub(crate) fn read(text: &str) -> Option<Order> {
        let (has_timers, text) = match text.strip_prefix('t') {
            Some(rest) => (true, rest),
            None => (false, text),
        };
        let mut chars = text.chars();
        let (first, rest) = (chars.next()?, chars.as_str());
        let numbers = || rest.split('.').map(|number| number.parse::<u64>().ok());
        let numbers = || numbers().all_listed();
        let kind = match first {
            's' => OrderKind::Steps(steps(rest)?),
            'r' => OrderKind::Random(rest.parse().ok()?),
            'o' => OrderKind::Pos(rest.parse().ok()?),
            'f' => OrderKind::File(PathBuf::from(rest.strip_prefix(':')?)),
            'g' => match numbers()?[..] {
                [seed, steps] => OrderKind::Guided {
                    seed,
                    steps: steps.try_into().ok()?,
                },
                _ => return None,
            },
            'p' => match numbers()?[..] {
                [depth, seed, steps] if (1..100).contains(&depth) => OrderKind::Pct {
                    depth: depth as u32,
                    seed,
                    steps: steps.try_into().ok()?,
                },
                _ => return None,
            },
            _ => return None,
        };
        Some(Order { kind, has_timers })
    }

    /// Returns the name of its strategy.
    pub(crate) fn strategy(&self) -> &'static str {
        match &self.kind {
            OrderKind::Steps(_) => "search",
            OrderKind::Random(_) => "random",
            OrderKind::Pct { depth: 2, .. } => "PCT 2",
            OrderKind::Pct { .. } => "PCT 3",
            OrderKind::Pos(_) => "POS",
            OrderKind::Guided { .. } => "guided",
            OrderKind::File(_) => "schedule",
        }
    }
}

/// Returns the steps that differ from the order without a switch, as in `12.1-15.2`.
fn steps(text: &str) -> Option<Vec<(u32, u32)>> {
    if text.is_empty() {
        return Some(Vec::new());
    }
    let step = |step: &str| {
        let (at, other) = step.split_once('.')?;
        Some((at.parse().ok()?, other.parse().ok()?))
    };
    text.split('-').map(step).all_listed()
}

impl fmt::Display for Order {
    fn fmt(&self, f: &mut fmt::Formatter<'_>) -> fmt::Result {
        f.write_str(if self.has_timers { "t" } else { "" })?;
        match &self.kind {
            OrderKind::Steps(steps) => {
                let steps: Vec<_> = steps.iter().map(|(at, to)| format!("{at}.{to}")).listed();
                write!(f, "s{}", steps.join("-"))
            }
            OrderKind::Random(seed) => write!(f, "r{seed}"),
            OrderKind::Pct { depth, seed, steps } => write!(f, "p{depth}.{seed}.{steps}"),
            OrderKind::Pos(seed) => write!(f, "o{seed}"),
            OrderKind::Guided { seed, steps } => write!(f, "g{seed}.{steps}"),
            OrderKind::File(path) => write!(f, "f:{}", path.display()),
        }
    }
}

#[cfg(test)]
mod tests {
    use super::*;

    #[test]
    fn a_text_names_one_order() {
        for text in [
            "s",
            "s12.1",
            "ts4.1-9.2",
            "r17",
            "p2.17.40",
            "tp3.5.9",
            "o3",
            "tg17.40",
            "f:/tmp/a b",
        ] {
            assert_eq!(Order::read(text).unwrap().to_string(), text);
        }
    }

    #[test]
    fn another_text_names_none() {
        for text in [
            "", "t", "x", "s1", "s1.", "s1.2-", "r", "r-1", "p2.17", "p0.1.1", "o", "f", "g1",
        ] {
            assert_eq!(Order::read(text), None, "{text}");
        }
    }
}
