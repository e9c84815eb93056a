//! The first difference of two runs in words.

use super::super::columns::{Cells, aligned};
use super::side::{Side, SideCall, SideChannel};
use super::{Differing, DiffersBy};
use yovanelum_record::listed::{IntoList, PushAll};
use yovanelum_record::operation::Operation;
use yovanelum_record::reply::Reply;
use yovanelum_record::sorting::sort_by_key;
use yovanelum_record::visible;

/// The call that an order is about: which run it comes before in alone, its place there, and how
/// many sends do. Without a send, it is the drop that closes the channel.
struct About {
    is_here: bool,
    place: u64,
    sends: usize,
}

/// Returns the line of the first difference, the calls that tell of it, and how many calls differ.
pub(super) fn lines(here: &Side<'_>, there: &Side<'_>, differing: &[Differing]) -> Vec<String> {
    let counts = counts(here, there, differing);
    let Some(first) = differing.first() else {
        return vec!["no call differs".to_string(), counts];
    };
    let about = match (first.kind, first.here, first.there) {
        (DiffersBy::Order, Some(a), Some(b)) => Some(about(here, there, a, b)),
        _ => None,
    };
    let mut lines = vec![head(here, there, first, about.as_ref())];
    let rows = rows(here, there, first, about.as_ref());
    lines.push_all(aligned(&rows.iter().listed()));
    lines.push(counts);
    lines
}

/// Returns the call that comes before another one in one run alone, which is at these places.
fn about(here: &Side<'_>, there: &Side<'_>, a: u64, b: u64) -> About {
    let (a, b) = (here.call(a), there.call(b));
    let channels: [&SideChannel; 2] = [
        &here.channels[a.entry.channel as usize],
        &there.channels[b.entry.channel as usize],
    ];
    let (sends_here, sends_there) = (a.sends.unwrap_or(0), b.sends.unwrap_or(0));
    if sends_here == sends_there {
        return About {
            is_here: a.is_closed,
            place: channels[usize::from(!a.is_closed)].closed_at,
            sends: 0,
        };
    }
    let is_here = sends_here > sends_there;
    About {
        is_here,
        place: channels[usize::from(!is_here)].sends[sends_here.min(sends_there)],
        sends: sends_here.abs_diff(sends_there),
    }
}

/// Returns the columns of the calls that tell of a difference, in the order of each run.
fn rows(here: &Side<'_>, there: &Side<'_>, first: &Differing, about: Option<&About>) -> Vec<Cells> {
    let mut places = [vec![], vec![]];
    places[0].push_all(first.here);
    places[1].push_all(first.there);
    if let Some(about) = about {
        let sides = [here, there];
        let own = usize::from(!about.is_here);
        // A channel that a lead closes was closed by no call of the run.
        if sides[own].has_call(about.place) {
            let partner = sides[1 - own].partner_of(sides[own].call(about.place));
            places[own].push(about.place);
            places[1 - own].push_all(partner);
        }
    }
    let mut rows = vec![];
    for (places, (word, side)) in places.iter_mut().zip(&[("here", here), ("there", there)]) {
        sort_by_key(places, |place| *place);
        places.dedup();
        rows.push_all(places.iter().map(|place| cells(word, side, *place)));
    }
    rows
}

fn cells(word: &str, side: &Side<'_>, place: u64) -> Cells {
    let call = side.call(place);
    let naming = side.naming();
    let source = naming.call_source(call.entry.channel, place);
    let method = format!("{}({})", call.word.method(), argument(side, call));
    [
        format!("{word:<5}   call {place}"),
        naming.method(call.entry.channel, &method),
        naming.actor(call.entry.actor.into()),
        source.map_or(String::new(), visible::line_of),
        reply(side, call),
    ]
}

fn argument(side: &Side<'_>, call: &SideCall) -> String {
    match (call.entry.word, call.entry.value) {
        (Operation::Drop, _) => call.entry.handle.to_string(),
        (_, Some(value)) => side.naming().value(call.entry.channel, value),
        _ => String::new(),
    }
}

fn reply(side: &Side<'_>, call: &SideCall) -> String {
    let value = |value| side.naming().value(call.entry.channel, value);
    let word = |is| if is == 1 { "yes" } else { "no" };
    match call.entry.reply {
        Reply::Value(it) => value(it),
        Reply::Old(it) => format!("old {}", value(it)),
        Reply::NoReceivers(it) => format!("no-receivers {}", value(it)),
        Reply::Sent(count) => format!("sent {count}"),
        Reply::Lagged(count) => format!("lagged {count}"),
        Reply::Count(count) => format!("count {count}"),
        Reply::Told(is) => format!("told {}", word(is)),
        Reply::Flag(is) => format!("flag {}", word(is)),
        reply => reply_word(reply).to_string(),
    }
}

/// Returns the word of a reply that has no number.
fn reply_word(reply: Reply) -> &'static str {
    match reply {
        Reply::Empty => "empty",
        Reply::Closed => "closed",
        Reply::New(_) => "new",
        Reply::Dropped => "dropped",
        Reply::Unknown => "unknown",
        Reply::Gone => "gone",
        Reply::WrongKind => "wrong-kind",
        Reply::TooManyHandles => "too-many-handles",
        Reply::Stored => "stored",
        Reply::Done => "done",
        Reply::NoSender => "no-sender",
        // No entry has another one.
        _ => "",
    }
}

/// Returns what the other run is called.
pub(super) fn which(here: &Side<'_>, there: &Side<'_>) -> &'static str {
    match (here.has_failed(), there.has_failed()) {
        (true, false) => "the passing run",
        (false, true) => "the failing run",
        _ => "the other run",
    }
}

fn head(here: &Side<'_>, there: &Side<'_>, first: &Differing, about: Option<&About>) -> String {
    let run = which(here, there);
    let (side, place, of) = match (first.here, first.there) {
        (Some(place), _) => (here, place, String::new()),
        (None, place) => (there, place.unwrap_or(0), format!(" of {run}")),
    };
    let call = side.call(place);
    let name = side.naming().actor(call.entry.actor.into());
    let who = if side.has_name(call.entry.actor) {
        format!("`{name}`")
    } else {
        name
    };
    let said = match (first.kind, about) {
        (DiffersBy::Missing, _) => format!("{who} doesn't make it in {run}"),
        (DiffersBy::Other, _) => format!("{who} made another call in {run}"),
        (DiffersBy::Order, Some(about)) => {
            format!("{who} {} {} in {run}", call.word.done(), order(about))
        }
        (DiffersBy::Value, _) => format!("{who} sent another value in {run}"),
        (DiffersBy::More, _) => format!("{who} doesn't make it here"),
        (DiffersBy::Reply | DiffersBy::Order, _) => format!("{who} got another reply in {run}"),
    };
    format!("the first difference: call {place}{of}, {said}")
}

fn order(about: &About) -> String {
    let what = match about.sends {
        0 => "the close".to_string(),
        1 => "the send".to_string(),
        sends => format!("{sends} sends"),
    };
    format!("{} {what}", if about.is_here { "before" } else { "after" })
}

fn counts(here: &Side<'_>, there: &Side<'_>, differing: &[Differing]) -> String {
    let count = |is: fn(&Differing) -> bool| differing.iter().filter(|it| is(it)).count();
    let both = count(|it| it.here.is_some() && it.there.is_some());
    let only_here = count(|it| it.there.is_none());
    let only_there = count(|it| it.here.is_none());
    let differs = if both == 1 { "differs" } else { "differ" };
    let parts = [
        (both, differs),
        (only_here, "only here"),
        (only_there, "only there"),
    ];
    let parts = parts.iter().filter(|(count, _)| *count > 0);
    let parts: Vec<_> = parts
        .map(|(count, what)| format!("{count} {what}"))
        .listed();
    format!(
        "{} here, {} there: {}",
        visible::counted(here.len(), "call"),
        visible::counted(there.len(), "call"),
        if parts.is_empty() {
            "all the same".to_string()
        } else {
            parts.join(", ")
        }
    )
}
