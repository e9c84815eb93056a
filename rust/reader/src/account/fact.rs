//! A fact of the account: its lines, and the steps of the run that it tells of.

use super::columns::{self, Cells};
use super::finding::orders;
use super::times::CallTime;
use std::{iter, ptr};
use yovanelum_record::listed::{IntoList, PushAll};
use yovanelum_record::sidecar::{Json, SourceLocation};

/// What a step is to a fact.
#[derive(Clone, Copy, Debug, PartialEq, Eq)]
pub enum Role {
    /// The send that overwrote the first value which was lost.
    Cause,
    /// The call that was told.
    Told,
    /// The drop of a receiver that was never told.
    Dropped,
    /// The panic that ended the test, or the error that it returned.
    Failure,
    /// The end of the run.
    End,
    /// The last look of a receiver of a watch.
    Look,
    /// The last change of a watch.
    Change,
    /// The call that marked a value of a watch as seen, or as changed.
    Mark,
    /// The drop of the last sender, or of the last receiver.
    Close,
    /// The panic of another thread or task.
    Panic,
    /// The send of a value that was returned, reached nobody, or came too early.
    Sent,
    /// Where a call began to wait, or a receiver was created too late.
    Begin,
}

impl Role {
    /// The word for it in JSON, and what it is in a sentence with nothing but its place in the
    /// sources.
    fn words(self) -> (&'static str, &'static str) {
        match self {
            Role::Cause => ("cause", "the send that overwrote the first of them"),
            Role::Told => ("told", "the call that was told"),
            Role::Dropped => ("dropped", "the drop of the receiver"),
            Role::Failure => ("failure", "it had not been told by then"),
            Role::End => ("end", "the end of the run"),
            Role::Look => ("look", "its last look"),
            Role::Change => ("change", "the last change"),
            Role::Mark => ("mark", "the call that marked it"),
            Role::Close => ("close", "the drop that closed it"),
            Role::Panic => ("panic", "the panic"),
            Role::Sent => ("sent", "the send"),
            Role::Begin => ("begin", "where it began"),
        }
    }

    /// The word for it in JSON.
    pub fn word(self) -> &'static str {
        self.words().0
    }

    /// What it is in a sentence with nothing but its place in the sources.
    pub fn sentence(self) -> &'static str {
        self.words().1
    }
}

/// A step of the run that a fact tells of: a call, or what ended the test or the run.
#[derive(Debug)]
pub struct FactStep {
    pub place: u64,
    pub role: Role,
    pub actor: Option<u64>,
    /// Where it is in the sources.
    pub location: Option<SourceLocation>,
    /// Where the sender or receiver of the call was created.
    pub(super) made: Option<SourceLocation>,
    /// When it was called.
    pub(super) time: Option<CallTime>,
    /// The number that snapshots have for the call, in a dump.
    pub(super) stamp: Option<u64>,
    pub(super) cells: Cells,
}

impl FactStep {
    /// Returns a step with these parts, and without who made it, where and when.
    pub(super) fn new(place: u64, role: Role, cells: Cells) -> FactStep {
        FactStep {
            place,
            role,
            actor: None,
            location: None,
            made: None,
            time: None,
            stamp: None,
            cells,
        }
    }

    /// Which step it is, as `call 3` or `the panic`.
    pub fn name(&self) -> &str {
        &self.cells[0]
    }

    /// Returns where it is for those who have the user's sources alone: where a library called, as
    /// the stream of a receiver does, the receiver was created.
    pub fn own_location(&self) -> Option<&SourceLocation> {
        own_location(self.location.as_ref(), self.made.as_ref())
    }
}

/// Returns a place in the user's sources: that of a call, or else where its handle was created.
pub(super) fn own_location<'a>(
    called: Option<&'a SourceLocation>,
    made: Option<&'a SourceLocation>,
) -> Option<&'a SourceLocation> {
    let called = called?;
    let mut both = iter::once(called).chain(made);
    both.find(|location| !location.is_downloaded())
}

/// How much a fact says of the failure.
#[derive(Clone, Copy, Debug, PartialEq, Eq)]
pub enum Level {
    Error,
    Warning,
    Note,
}

impl Level {
    /// The word for it, as rustc has it.
    pub fn word(self) -> &'static str {
        match self {
            Level::Error => "error",
            Level::Warning => "warning",
            Level::Note => "note",
        }
    }
}

/// What was found of a receiver or a channel, in words.
#[derive(Debug)]
pub struct Fact {
    /// The number of the rule that orders it.
    pub order: u8,
    pub kind: &'static str,
    /// What else is known of it, by keys.
    pub members: Vec<(&'static str, Json)>,
    pub head: String,
    pub steps: Vec<FactStep>,
    /// The line after the steps, if there is one.
    pub last: Option<String>,
    /// Why it was late, as sentences in the order of time.
    pub late: Vec<String>,
    /// The steps whose places in the sources are worth looking at, the one that is worth most
    /// first.
    pub sights: Vec<usize>,
    /// The call that is worth looking at.
    pub look: u64,
}

impl Fact {
    /// Returns a fact whose last step is worth most, then the one before it. Its order comes from
    /// what was found.
    pub(super) fn new(
        kind: &'static str,
        members: Vec<(&'static str, Json)>,
        head: String,
        steps: Vec<FactStep>,
        look: u64,
    ) -> Fact {
        Fact {
            order: 0,
            kind,
            members,
            head,
            sights: (0..steps.len()).rev().collect(),
            steps,
            last: None,
            late: vec![],
            look,
        }
    }

    /// Returns its level. The first fact of a run says what failed, but for what is usual in a test
    /// that passes: a receiver of a watch that looks and doesn't mark, or that was never used, and
    /// a channel that closed. Nor is it known that a failure came of a call that another thread or
    /// task waits in: that one may be idle.
    pub fn level(&self, is_first: bool, has_failed: bool) -> Level {
        let is_usual = self.order >= orders::UNMARKED && self.kind != "loss";
        match self.order {
            orders::OTHER_VALUE | orders::ENDED => Level::Note,
            _ if !is_first || is_usual || has_failed && self.kind == "wait" => Level::Warning,
            _ => Level::Error,
        }
    }

    /// Returns its lines. That of a step comes after the first line and those of the steps before
    /// it.
    pub fn text(&self) -> Vec<String> {
        self.text_without(&[])
    }

    /// Returns its lines without those of these steps.
    pub fn text_without(&self, shown: &[&FactStep]) -> Vec<String> {
        let mut text = vec![self.head.clone()];
        let steps = self.steps.iter();
        // Two steps may have one place: a call, and the wait that begins after it.
        let others = steps.filter(|step| !shown.iter().any(|it| ptr::eq(*it, *step)));
        text.push_all(columns::aligned(&others.map(|step| &step.cells).listed()));
        text.push_all(self.last.clone());
        text.push_all(self.late.iter().map(|late| format!("  late: {late}")));
        text
    }

    /// Returns what happened in a step, for a line of the sources: what was called, by whom, and
    /// what there is to say of it.
    pub fn label(&self, step: &FactStep) -> String {
        let [_, called, who, _, more] = &step.cells;
        let is_by_several = self.steps.iter().any(|other| other.cells[2] != *who);
        let by = if is_by_several && !who.is_empty() {
            format!(" by {who}")
        } else {
            String::new()
        };
        let called = match called.strip_prefix("told:") {
            Some(told) => format!("told here:{told}"),
            None => called.clone(),
        };
        let more = if more.is_empty() {
            String::new()
        } else {
            format!(", {more}")
        };
        called + &by + &more
    }

    /// Returns the steps with a known place in the sources, the one that is worth most first.
    pub fn sights(&self) -> impl Iterator<Item = (&FactStep, &SourceLocation)> {
        let steps = self.sights.iter().map(|index| &self.steps[*index]);
        steps.filter_map(|step| Some((step, step.location.as_ref()?)))
    }

    /// Returns the first of those places that is in the user's sources.
    pub fn own_location(&self) -> Option<&SourceLocation> {
        let mut steps = self.sights.iter().map(|index| &self.steps[*index]);
        steps.find_map(FactStep::own_location)
    }
}
