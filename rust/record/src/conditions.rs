//! Conditions by names, as `lagging audit`: what a debugger and a search take where the console of
//! `ttd` takes numbers.
//!
//! It is for `yovanelum-dap` and for exploring, and changes with them.

use crate::visible;
use std::error::Error;
use std::fmt;
use std::str::FromStr;
use yovanelum_core::source::rw_words::ReplyWord;

/// How many names are said of those that there are.
const NAMES_SAID: usize = 20;

/// A text is none of a condition.
///
/// ```
/// use yovanelum::debugger::Condition;
///
/// let error = "lagging".parse::<Condition>().unwrap_err();
/// assert_eq!(error.to_string(), "no such condition");
/// ```
#[derive(Clone, Copy, Debug, PartialEq, Eq)]
pub struct NoCondition;

impl fmt::Display for NoCondition {
    fn fmt(&self, f: &mut fmt::Formatter<'_>) -> fmt::Result {
        f.write_str("no such condition")
    }
}

impl Error for NoCondition {}

/// What a condition is of, in words.
#[derive(Clone, Copy, Debug, PartialEq, Eq)]
pub enum ConditionSubject {
    /// An actor.
    Actor,
    /// A channel of either kind.
    Channel,
    /// A broadcast channel.
    Broadcast,
    /// A watch channel.
    Watch,
    /// A receiver of a broadcast channel.
    BroadcastReceiver,
    /// A receiver of a watch channel.
    WatchReceiver,
    /// The first word of a reply.
    Reply,
}

/// The words of conditions, what each is of, and whether a number follows.
const WORDS: [(&str, ConditionSubject, bool); 9] = [
    ("actor", ConditionSubject::Actor, false),
    ("channel", ConditionSubject::Channel, false),
    ("reply", ConditionSubject::Reply, false),
    ("unread", ConditionSubject::BroadcastReceiver, true),
    ("lagging", ConditionSubject::BroadcastReceiver, false),
    ("unseen", ConditionSubject::WatchReceiver, false),
    ("version", ConditionSubject::Watch, true),
    ("closed", ConditionSubject::Channel, false),
    ("queue", ConditionSubject::Broadcast, true),
];

/// A condition in which names may stand for numbers. It is read without a run.
#[derive(Clone, Debug, PartialEq, Eq)]
pub struct NamedCondition {
    pub word: &'static str,
    pub sort: ConditionSubject,
    /// A name, or the numbers of a channel, a receiver or an actor, or the word of a reply.
    pub name: String,
    pub count: Option<u64>,
}

impl FromStr for NamedCondition {
    type Err = NoCondition;

    fn from_str(text: &str) -> Result<NamedCondition, NoCondition> {
        let (word, rest) = text.trim().split_once(' ').ok_or(NoCondition)?;
        let known = WORDS.iter().find(|(known, ..)| *known == word);
        let (word, sort, has_count) = *known.ok_or(NoCondition)?;
        let rest = rest.trim();
        let (name, count) = if has_count {
            let (name, count) = rest.rsplit_once(' ').ok_or(NoCondition)?;
            (name.trim(), Some(count.parse().map_err(|_| NoCondition)?))
        } else {
            (rest, None)
        };
        let name = name.trim_matches('`');
        let is_reply = || ReplyWord::of(name.as_bytes()).is_some();
        if name.is_empty() || sort == ConditionSubject::Reply && !is_reply() {
            Err(NoCondition)
        } else {
            Ok(NamedCondition {
                word,
                sort,
                name: name.to_string(),
                count,
            })
        }
    }
}

impl NamedCondition {
    /// Returns what is said where there is nothing of its name, but of these names.
    pub fn unknown_among(&self, names: &[String]) -> String {
        let quoted: Vec<_> = names.iter().map(|name| format!("`{name}`")).collect();
        let sort = self.sort.plural();
        if quoted.is_empty() {
            format!("`{self}` names nothing: there are no {sort}")
        } else {
            let first = visible::first(&quoted, NAMES_SAID, ", ");
            format!("`{self}` names nothing: the {sort} are {first}")
        }
    }
}

impl fmt::Display for NamedCondition {
    fn fmt(&self, f: &mut fmt::Formatter<'_>) -> fmt::Result {
        write!(f, "{} {}", self.word, self.name)?;
        self.count.map_or(Ok(()), |count| write!(f, " {count}"))
    }
}

impl ConditionSubject {
    /// Whether it is of channels of this kind. There may be no such channel.
    pub fn is_of_channel(self, is_watch: Option<bool>) -> bool {
        match self {
            ConditionSubject::Actor | ConditionSubject::Reply => false,
            ConditionSubject::Channel => is_watch.is_some(),
            ConditionSubject::Broadcast | ConditionSubject::BroadcastReceiver => {
                is_watch == Some(false)
            }
            ConditionSubject::Watch | ConditionSubject::WatchReceiver => is_watch == Some(true),
        }
    }

    /// Returns what it is called, where there are several.
    pub fn plural(self) -> &'static str {
        match self {
            ConditionSubject::Actor => "actors",
            ConditionSubject::Channel => "channels",
            ConditionSubject::Broadcast => "broadcast channels",
            ConditionSubject::Watch => "watch channels",
            ConditionSubject::BroadcastReceiver => "receivers of a broadcast",
            ConditionSubject::WatchReceiver => "receivers of a watch",
            ConditionSubject::Reply => "replies",
        }
    }
}

#[cfg(test)]
mod tests {
    use super::*;

    #[test]
    fn a_text_that_is_no_condition_is_refused() {
        for text in [
            "",
            "lagging",
            "lagging ",
            "lagging ``",
            "lags audit",
            "unread audit",
            "unread 3",
            "queue orders many",
            "version config -1",
            "reply late",
        ] {
            assert_eq!(text.parse::<NamedCondition>(), Err(NoCondition), "{text}");
        }
    }
}
