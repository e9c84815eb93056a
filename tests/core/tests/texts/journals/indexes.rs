//! Indexes of conditions on entries, over the runs of rows.

use crate::shared::{index_of, looked_up, navigator_of, searched};
use crate::texts::rows::{OVERRUN, TWO_CHANNELS, UNREAD, run_of};
use proved::rw_journal::Run;
use proved::rw_law::{Payload, Reversible};
use proved::rw_navigator::{Cond, HitIndex, Navigator, Probe};
use proved::rw_words::ReplyWord;

/// Returns the condition that a reply begins with this word.
fn replies_with(word: &[u8]) -> Cond {
    Cond::ReplyKind(ReplyWord::of(word).expect("a reply has this word"))
}

/// What an index finds below a place, and above it.
type Hits = (Option<u64>, Option<u64>);

/// What an index finds at four places, and whether it has a hit and finds what searches find, at each place up to the end.
type Found = ([Hits; 4], bool);

/// Whether the condition has a hit, and its index finds what searches find, at each place up to the end.
fn agrees<R: Reversible, P: Probe<R>>(
    navigator: &mut Navigator<R>,
    index: &HitIndex<R, P>,
    condition: &P,
    end: u64,
) -> bool {
    let (greatest, _) = looked_up(index, end);
    let mut agrees = greatest.is_some();
    for place in 0..end {
        let found = searched(navigator, condition, place);
        agrees = agrees && found == Ok(looked_up(index, place));
    }
    agrees
}

/// Returns what the index of a condition finds in a navigator's journal. The navigator is lent.
fn found_by<R: Reversible, P: Probe<R>>(
    navigator: &mut Navigator<R>,
    index: &HitIndex<R, P>,
    condition: &P,
    [first, second, third, last]: [u64; 4],
    end: u64,
) -> Found {
    let hits = [
        looked_up(index, first),
        looked_up(index, second),
        looked_up(index, third),
        looked_up(index, last),
    ];
    (hits, agrees(navigator, index, condition, end))
}

/// Builds the index of a condition, and returns what it finds, or nothing for a condition on states.
fn found_in<R: Reversible, P: Probe<R>>(
    mut navigator: Navigator<R>,
    condition: &P,
    places: [u64; 4],
    end: u64,
) -> Option<Found> {
    let index = index_of(&navigator, condition)?;
    Some(found_by(&mut navigator, &index, condition, places, end))
}

/// Returns what the index of a condition finds in a run.
fn found_at<V: Payload>(run: &Run<V>, condition: &Cond, places: [u64; 4]) -> Option<Found> {
    let end = run.len().saturating_add(1);
    let navigator = navigator_of(run);
    found_in(navigator, condition, places, end)
}

/// Returns what the index of a condition finds in the run of a script.
fn found(script: &[u8], condition: &Cond, places: [u64; 4]) -> Option<Found> {
    let run = run_of(script);
    found_at(&run, condition, places)
}

#[test]
fn an_index_has_the_hits_below_and_above_a_place() {
    let condition = replies_with(b"value");
    let hits = found(OVERRUN, &condition, [0, 5, 6, 7]);
    let told = [
        (None, Some(5)),
        (None, Some(6)),
        (Some(5), None),
        (Some(6), None),
    ];
    assert_eq!(hits, Some((told, true)));
}

/// A script, conditions on actors and channels, and words that a reply begins with.
type Search = (&'static [u8], &'static [Cond], &'static [&'static [u8]]);

static SEARCHES: [Search; 3] = [
    (
        OVERRUN,
        &[Cond::Actor(0), Cond::Channel(0)],
        &[b"sent", b"lagged", b"value", b"empty"],
    ),
    (
        UNREAD,
        &[Cond::Actor(0), Cond::Channel(0)],
        &[b"sent", b"value"],
    ),
    (
        TWO_CHANNELS,
        &[
            Cond::Actor(0),
            Cond::Actor(1),
            Cond::Channel(0),
            Cond::Channel(1),
        ],
        &[b"sent", b"stored"],
    ),
];

/// Asserts that the index of a condition finds in the run of a script what searches find.
fn is_found(script: &[u8], condition: &Cond) {
    let agrees = match found(script, condition, [0; 4]) {
        Some((_, agrees)) => agrees,
        None => false,
    };
    assert!(agrees, "{condition:?}");
}

/// Asserts so for each of these conditions on the run of a script.
fn are_found((script, conditions, words): &Search) {
    for condition in *conditions {
        is_found(script, condition);
    }
    for word in *words {
        is_found(script, &replies_with(word));
    }
}

#[test]
fn an_index_finds_what_searches_find() {
    for search in &SEARCHES {
        are_found(search);
    }
}
