//! Conditions to search for, which have the words of the console.

use std::fmt;
use std::str::FromStr;
use yovanelum_core::source::rw_lines::numeral;
use yovanelum_core::source::rw_navigator::Cond;
use yovanelum_core::source::rw_words::ReplyWord;
use yovanelum_record::conditions::NoCondition;
use yovanelum_record::listed::AllListed;

/// A condition to search a run for. It is read from the text that the console of `ttd` takes, and
/// has that text.
///
/// The hits of a condition on calls, which are [`actor`](Condition::actor),
/// [`channel`](Condition::channel) and [`reply`](Condition::reply), are the places that such a call
/// leads to. The others are on states: a hit is a place where the condition holds, and didn't one
/// place before. A condition with a number that names nothing has no hit.
///
/// ```
/// use yovanelum::debugger::Condition;
///
/// let condition: Condition = "lagging 0 1".parse()?;
/// assert_eq!(condition.to_string(), "lagging 0 1");
/// assert!("lagging 0".parse::<Condition>().is_err());
/// # Ok::<(), yovanelum::debugger::NoCondition>(())
/// ```
#[derive(Clone, Copy, Debug)]
pub struct Condition(pub(super) Cond);

impl Condition {
    /// The call is this actor's.
    ///
    /// ```
    /// # use yovanelum::debugger::Condition;
    /// assert_eq!(Condition::actor(2).to_string(), "actor 2");
    /// ```
    pub fn actor(actor: u64) -> Condition {
        Condition(Cond::Actor(actor))
    }

    /// The call is on this channel.
    ///
    /// ```
    /// # use yovanelum::debugger::Condition;
    /// assert_eq!(Condition::channel(2).to_string(), "channel 2");
    /// ```
    pub fn channel(channel: u64) -> Condition {
        Condition(Cond::Channel(channel))
    }

    /// The reply to the call begins with this word. Returns `None` if no reply does.
    ///
    /// ```
    /// # use yovanelum::debugger::Condition;
    /// assert_eq!(Condition::reply("lagged").unwrap().to_string(), "reply lagged");
    /// assert!(Condition::reply("late").is_none());
    /// ```
    pub fn reply(word: &str) -> Option<Condition> {
        let word = ReplyWord::of(word.as_bytes())?;
        Some(Condition(Cond::ReplyKind(word)))
    }

    /// The receiver of a broadcast has at least this many values to receive.
    ///
    /// ```
    /// # use yovanelum::debugger::Condition;
    /// assert_eq!(Condition::unread(0, 1, 3).to_string(), "unread 0 1 3");
    /// ```
    pub fn unread(channel: u64, handle: u64, count: u64) -> Condition {
        Condition(Cond::UnreadAtLeast {
            channel,
            handle,
            count,
        })
    }

    /// The receiver of a broadcast lags: a value was overwritten that it had not received.
    ///
    /// ```
    /// # use yovanelum::debugger::Condition;
    /// assert_eq!(Condition::lagging(0, 1).to_string(), "lagging 0 1");
    /// ```
    pub fn lagging(channel: u64, handle: u64) -> Condition {
        Condition(Cond::Lagging { channel, handle })
    }

    /// The receiver of a watch has not seen its value.
    ///
    /// ```
    /// # use yovanelum::debugger::Condition;
    /// assert_eq!(Condition::unseen(0, 1).to_string(), "unseen 0 1");
    /// ```
    pub fn unseen(channel: u64, handle: u64) -> Condition {
        Condition(Cond::Unseen { channel, handle })
    }

    /// The version of a watch is at least this.
    ///
    /// ```
    /// # use yovanelum::debugger::Condition;
    /// assert_eq!(Condition::version(0, 2).to_string(), "version 0 2");
    /// ```
    pub fn version(channel: u64, version: u64) -> Condition {
        Condition(Cond::VersionAtLeast { channel, version })
    }

    /// No sender of the channel is alive.
    ///
    /// ```
    /// # use yovanelum::debugger::Condition;
    /// assert_eq!(Condition::closed(0).to_string(), "closed 0");
    /// ```
    pub fn closed(channel: u64) -> Condition {
        Condition(Cond::Closed(channel))
    }

    /// A broadcast retains at least this many values for some receiver.
    ///
    /// ```
    /// # use yovanelum::debugger::Condition;
    /// assert_eq!(Condition::queue(0, 2).to_string(), "queue 0 2");
    /// ```
    pub fn queue(channel: u64, count: u64) -> Condition {
        Condition(Cond::QueueAtLeast { channel, count })
    }
}

impl FromStr for Condition {
    type Err = NoCondition;

    fn from_str(text: &str) -> Result<Condition, NoCondition> {
        read(text).ok_or(NoCondition)
    }
}

fn read(text: &str) -> Option<Condition> {
    let (word, rest) = text.split_once(' ')?;
    if word == "reply" {
        return Condition::reply(rest);
    }
    let numbers = rest.split(' ').map(|token| numeral(token.as_bytes()));
    let numbers: Vec<u64> = numbers.all_listed()?;
    match (word, &numbers[..]) {
        ("actor", &[actor]) => Some(Condition::actor(actor)),
        ("channel", &[channel]) => Some(Condition::channel(channel)),
        ("unread", &[channel, handle, count]) => Some(Condition::unread(channel, handle, count)),
        ("lagging", &[channel, handle]) => Some(Condition::lagging(channel, handle)),
        ("unseen", &[channel, handle]) => Some(Condition::unseen(channel, handle)),
        ("version", &[channel, version]) => Some(Condition::version(channel, version)),
        ("closed", &[channel]) => Some(Condition::closed(channel)),
        ("queue", &[channel, count]) => Some(Condition::queue(channel, count)),
        _ => None,
    }
}

impl fmt::Display for Condition {
    fn fmt(&self, f: &mut fmt::Formatter<'_>) -> fmt::Result {
        match self.0 {
            Cond::Actor(actor) => write!(f, "actor {actor}"),
            Cond::Channel(channel) => write!(f, "channel {channel}"),
            Cond::ReplyKind(word) => {
                write!(f, "reply {}", String::from_utf8_lossy(word.text()))
            }
            Cond::UnreadAtLeast {
                channel,
                handle,
                count,
            } => write!(f, "unread {channel} {handle} {count}"),
            Cond::Lagging { channel, handle } => write!(f, "lagging {channel} {handle}"),
            Cond::Unseen { channel, handle } => write!(f, "unseen {channel} {handle}"),
            Cond::VersionAtLeast { channel, version } => write!(f, "version {channel} {version}"),
            Cond::Closed(channel) => write!(f, "closed {channel}"),
            Cond::QueueAtLeast { channel, count } => write!(f, "queue {channel} {count}"),
        }
    }
}
