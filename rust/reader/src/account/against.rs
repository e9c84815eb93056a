//! Two runs of one test, as one that failed and one that passed: their calls are aligned, and the
//! first that differs is put into words.
//!
//! `docs/use/FORMATS.md` in the repository says what is aligned with what, and when a call differs.
//! The page has it of here.

mod side;
#[cfg(test)]
mod tests;
mod words;

use side::{Keys, Side, SideCall};
use yovanelum_record::journal::Run;
use yovanelum_record::listed::{IntoList, PushAll};
use yovanelum_record::sidecar::{Json, Sidecar};

/// By what a call differs from the one that it is aligned with.
#[derive(Clone, Copy, Debug, PartialEq, Eq)]
pub enum DiffersBy {
    /// There is no such call in the other run.
    Missing,
    /// Its channel, its method or its handle is another one.
    Other,
    /// Another number of sends comes before it, or its channel is closed before one of them alone.
    Order,
    /// It sends another value.
    Value,
    Reply,
    /// There is no such call in this run.
    More,
}

impl DiffersBy {
    fn text(self) -> &'static str {
        match self {
            DiffersBy::Missing => "missing",
            DiffersBy::Other => "other",
            DiffersBy::Order => "order",
            DiffersBy::Value => "value",
            DiffersBy::Reply => "reply",
            DiffersBy::More => "more",
        }
    }
}

/// A call that differs, or that one of the runs alone has.
#[derive(Clone, Copy, Debug, PartialEq, Eq)]
pub struct Differing {
    pub kind: DiffersBy,
    pub here: Option<u64>,
    pub there: Option<u64>,
}

/// Who is told how the calls of two runs are aligned, as a page that draws them.
pub trait Listener {
    /// The run there is called this here, as `the passing run`.
    fn run(&mut self, _called: &'static str) {}

    /// The next channel there is this one here, if it is one.
    fn channel(&mut self, _here: Option<u32>) {}

    /// A call of the run here has this partner there, and differs by this.
    fn call(&mut self, _here: u64, _there: Option<u64>, _kind: Option<DiffersBy>) {}
}

/// Nobody.
impl Listener for () {}

/// Two runs whose calls are aligned.
pub struct Against {
    /// The first difference in words, and how many calls differ.
    pub lines: Vec<String>,
    /// The calls that differ, in the order of the run here, and then those that are only there.
    differing: Vec<Differing>,
    calls: [u64; 2],
}

impl Against {
    /// Aligns a run with another one. Each has the names beside it.
    pub fn of(here: (&Run, &Sidecar), there: (&Run, &Sidecar)) -> Against {
        Against::told(here, there, &mut ())
    }

    /// The same, and tells a listener how each channel and each call is aligned.
    pub fn told(
        here: (&Run, &Sidecar),
        there: (&Run, &Sidecar),
        listener: &mut impl Listener,
    ) -> Against {
        let both = Both {
            is_named: !here.1.actors.is_empty() && !there.1.actors.is_empty(),
            has_makers: [here.1, there.1]
                .iter()
                .all(|names| !names.matching.made_by.is_empty()),
        };
        let mut keys = Keys::default();
        let here = Side::of(here, both, &mut keys);
        let there = Side::of(there, both, &mut keys);
        listener.run(words::which(&here, &there));
        for channel in there.channels_in(&here) {
            listener.channel(channel);
        }
        let differing = differing(&here, &there, listener);
        Against {
            lines: words::lines(&here, &there, &differing),
            differing,
            calls: [here.len(), there.len()],
        }
    }

    /// Returns the object, without an end of its line.
    pub fn to_json(&self) -> String {
        let number = |place: Option<u64>| place.map_or(Json::Null, Json::number);
        let differing = self.differing.iter().map(|it| {
            Json::object(vec![
                ("kind", Json::text(it.kind.text())),
                ("here", number(it.here)),
                ("there", number(it.there)),
            ])
        });
        let [here, there] = self.calls;
        let object = Json::object(vec![
            ("version", Json::number(1)),
            (
                "calls",
                Json::List(vec![Json::number(here), Json::number(there)]),
            ),
            ("differing", Json::List(differing.listed())),
            (
                "text",
                Json::List(self.lines.iter().map(|line| Json::text(line)).listed()),
            ),
        ]);
        let mut out = String::new();
        object.push(&mut out);
        out
    }
}

/// What both runs have names for.
#[derive(Clone, Copy)]
struct Both {
    is_named: bool,
    has_makers: bool,
}

fn differing(here: &Side<'_>, there: &Side<'_>, listener: &mut impl Listener) -> Vec<Differing> {
    let mut has_partner = vec![false; there.len() as usize];
    let mut found = vec![];
    for (place, call) in here.calls() {
        let partner = there.partner_of(call);
        if let Some(partner) = partner {
            has_partner[there.index(partner)] = true;
        }
        let kind = kind_of((here, call), (there, partner));
        listener.call(place, partner, kind);
        if let Some(kind) = kind {
            found.push(Differing {
                kind,
                here: Some(place),
                there: partner,
            });
        }
    }
    let only = there.calls().zip(&has_partner).filter(|(_, has)| !**has);
    found.push_all(only.map(|((place, _), _)| Differing {
        kind: DiffersBy::More,
        here: None,
        there: Some(place),
    }));
    found
}

fn kind_of(
    (here, a): (&Side<'_>, &SideCall),
    (there, partner): (&Side<'_>, Option<u64>),
) -> Option<DiffersBy> {
    let Some(partner) = partner else {
        return Some(DiffersBy::Missing);
    };
    let b = there.call(partner);
    if (a.channel, a.word, a.handle) != (b.channel, b.word, b.handle) {
        return Some(DiffersBy::Other);
    }
    if (a.sends, a.is_closed) != (b.sends, b.is_closed) {
        return Some(DiffersBy::Order);
    }
    if here.sent_key(a) != there.sent_key(b) {
        return Some(DiffersBy::Value);
    }
    (here.reply_key(a) != there.reply_key(b)).then_some(DiffersBy::Reply)
}
