//! What a test is explored for, if not for a failure alone: a condition by names.

use std::env;
use yovanelum_record::conditions::NamedCondition;

/// The variable that has the condition.
pub(crate) const FOR: &str = "YOVANELUM_EXPLORE_FOR";

/// Returns the condition of the variable.
///
/// # Panics
///
/// Panics if the text is none.
pub(crate) fn condition() -> Option<NamedCondition> {
    let text = env::var(FOR).ok().filter(|text| !text.trim().is_empty())?;
    let condition: NamedCondition = text.parse().unwrap_or_else(|_| {
        panic!(
            "yovanelum: {FOR} is `{text}`, and no condition: write `lagging R`, `unread R N`, `unseen R`, `closed C`, `queue C N`, \
            `version C N`, `channel C`, `actor A` or `reply WORD`, with the names of a receiver, a channel and an actor"
        )
    });
    // A hit is a place before which it didn't hold.
    assert!(
        condition.count != Some(0),
        "yovanelum: {FOR} is `{text}`, which each run meets at its start"
    );
    Some(condition)
}
