//! The text that a failing test prints: the [`Account`] of its run, in the form in which rustc
//! writes its errors, which editors read. The end of a test, the command and the debugger print it.

mod colours;
pub mod page;
mod sarif;
mod source_lines;
mod strips;
pub mod terminal;
#[cfg(test)]
mod tests;
mod workflow;
mod wrapping;

pub use sarif::sarif;
use yovanelum_record::listed::{IntoList, PushAll};

use crate::account::{Account, Fact, Level};
use colours::Colours;
use source_lines::SourceLines;
use std::time::SystemTime;
use strips::Strips;
use workflow::Workflow;
use wrapping::wrapped;
use yovanelum_record::journal::{Run, TextFault};
use yovanelum_record::sidecar::{Sidecar, SourceLocation};
use yovanelum_record::visible::{first, path};

/// How many calls that wait are told.
const SHOWN_WAITS: usize = 3;

/// How many tasks are told that wait for something else.
const SHOWN_TASKS: usize = 8;

/// Where the line of such a task begins.
const TASK_WAITS: &str = "waits:";

/// The account of a run, to be printed, perhaps with lines of the sources.
#[derive(Debug)]
pub struct Report(Account, Option<SourceLines>);

impl Report {
    /// Makes the report on the run of this journal text.
    ///
    /// # Errors
    ///
    /// Returns the first fault of the text, if it is not a journal.
    pub fn new(text: &[u8], names: &Sidecar) -> Result<Report, TextFault> {
        Account::read(text, names).map(Report::of)
    }

    /// Makes the report on a run.
    ///
    /// # Errors
    ///
    /// Returns `NoMemory` if there is none for what is found.
    pub fn on(run: &Run, names: &Sidecar) -> Result<Report, TextFault> {
        Account::on(run, names).map(Report::of)
    }

    /// Makes the report of an account.
    pub fn of(account: Account) -> Report {
        Report(account, None)
    }

    /// Shows lines of the sources too, where they weren't written after this.
    pub fn with_sources(self, before: SystemTime) -> Report {
        let root = self.0.root.clone().unwrap_or_default();
        Report(self.0, Some(SourceLines::in_folder(root, before)))
    }

    /// The account that it prints.
    pub fn account(&self) -> &Account {
        &self.0
    }

    /// The call that is worth looking at first, or 0 for the start.
    pub fn call(&self) -> u64 {
        self.0.look
    }

    /// Returns the text, with a last line that says where to look, if there is one.
    pub fn text(self, look: Option<String>, has_colours: bool) -> String {
        self.text_with(look, Colours { has_colours }, None)
    }

    /// Returns how the line begins that says where to look.
    pub fn look_label(has_colours: bool) -> String {
        Colours { has_colours }.look("look:")
    }

    /// Returns the text for a terminal of this width: lines are broken there, and below each fact
    /// its receivers are drawn, if the run is given, with its names.
    pub fn text_for_terminal(
        self,
        look: String,
        (width, has_colours): (usize, bool),
        run: Option<(&Run, &Sidecar)>,
    ) -> String {
        let colours = Colours { has_colours };
        let strips = run.map(|(run, names)| Strips {
            run,
            names,
            colours,
            width,
        });
        wrapped(&self.text_with(Some(look), colours, strips), width)
    }

    fn text_with(
        self,
        look: Option<String>,
        colours: Colours,
        strips: Option<Strips<'_>>,
    ) -> String {
        let mut lines = self.before_facts();
        for (level, fact) in self.told() {
            push_fact(&mut lines, (fact, level), colours, self.1.as_ref());
            if let Some(strips) = &strips {
                lines.push_all(strips.below(fact));
            }
        }
        lines.push_all(self.after_facts(colours));
        lines.push_all(self.commands());
        lines.push_all(look.map(|look| format!("{} {look}", colours.look("look:"))));
        lines.iter().map(|line| format!("{line}\n")).collect()
    }

    /// Returns the lines of the facts that are told in full, without colours.
    pub fn told_lines(&self) -> String {
        let mut lines = vec![];
        let colours = Colours { has_colours: false };
        for (level, fact) in self.told() {
            push_fact(&mut lines, (fact, level), colours, None);
        }
        lines.iter().map(|line| format!("{line}\n")).collect()
    }

    /// Returns the facts that are told in full, with their levels.
    fn told(&self) -> impl Iterator<Item = (Level, &Fact)> {
        let Report(account, _) = self;
        account.with_levels().take(account.rest.after)
    }

    /// Returns the lines that say why there is a dump, that it isn't the run of its journal, what
    /// isn't known, how it failed, and by which race.
    fn before_facts(&self) -> Vec<String> {
        let Report(account, _) = self;
        let window = account.window.as_ref();
        let mut lines = vec![];
        lines.push_all(window.map(|window| format!("yovanelum: {}", window.text)));
        let why = account.unknown.join("; ");
        let left = account.left.iter();
        lines.push_all(left.map(|left| format!("yovanelum: {}", left.text)));
        if !why.is_empty() {
            lines.push(format!("yovanelum: not all is known: {why}"));
        }
        let in_snapshots = window.and_then(|window| window.in_snapshots.as_ref());
        lines.push_all(in_snapshots.map(|line| format!("yovanelum: {line}")));
        let failed = account.failed.as_ref();
        lines.push_all(failed.map(|failed| format!("failed: {}", failed.text)));
        let race = account.race.iter();
        lines.push_all(race.map(|race| format!("the race: {}", race.text)));
        lines
    }

    /// Returns the lines of the other facts, of what was not found, and of the calls that wait.
    fn after_facts(&self, colours: Colours) -> Vec<String> {
        let Report(account, _) = self;
        let nothing = account.nothing.as_ref();
        let nothing = nothing.map(|line| format!("yovanelum: {line}"));
        let waits = account.waiting.iter().filter(|wait| !wait.is_told);
        let waits = waits.map(|wait| wait.text.clone());
        let waits: Vec<_> = waits.listed();
        let label = colours.waiting("still waiting:");
        let mut lines = account.rest.text().into_iter().listed();
        lines.push_all(nothing);
        if !waits.is_empty() {
            lines.push(format!("{label} {}", first(&waits, SHOWN_WAITS, "; ")));
        }
        let pending = self.pending_lines().into_iter().map(|line| {
            let task = line.strip_prefix(TASK_WAITS).unwrap_or(&line);
            format!("{}{task}", colours.waiting(TASK_WAITS))
        });
        lines.push_all(pending);
        lines
    }

    /// Returns the lines of the tasks that wait for something else than a call of a channel, if the
    /// run hangs or failed since a call waited.
    pub fn pending_lines(&self) -> Vec<String> {
        let Report(account, _) = self;
        let tasks = account.pending.iter().take(SHOWN_TASKS);
        let mut lines: Vec<_> = tasks
            .map(|task| format!("{TASK_WAITS} {}", task.text))
            .listed();
        let more = account.pending.len().saturating_sub(SHOWN_TASKS);
        lines.push_all((more > 0).then(|| format!("{TASK_WAITS} and {more} more")));
        lines
    }

    /// Returns the commands for the workflow that runs this program, if one does.
    fn commands(&self) -> Vec<String> {
        let Some(workflow) = Workflow::current() else {
            return vec![];
        };
        let root = self.0.root.as_deref();
        let told = self.told();
        told.map(|(level, fact)| workflow.command(level, fact, root))
            .listed()
    }
}

/// Appends the lines of a fact. The first one has both its places in the sources on lines of their
/// own, and the others have one. A step whose line in the sources is shown has no other line.
fn push_fact(
    lines: &mut Vec<String>,
    (fact, level): (&Fact, Level),
    colours: Colours,
    sources: Option<&SourceLines>,
) {
    let is_first = level == Level::Error;
    let head = colours.head(&fact.head);
    lines.push(format!("{} {head}", colours.level(level)));
    let mut shown = vec![];
    for (nth, (step, location)) in fact.sights().take(1 + usize::from(is_first)).enumerate() {
        if nth > 0 {
            let sentence = step.role.sentence();
            lines.push(format!("note: {}, {sentence}", step.name()));
        }
        lines.push(arrow(location));
        if let Some(source) = sources.and_then(|sources| sources.of(location)) {
            let label = format!("{} {}", source.carets, fact.label(step));
            lines.push(source.line);
            lines.push(source.below + &colours.label(level, nth, &label));
            shown.push(step);
        }
    }
    let others = fact.text_without(&shown).into_iter().skip(1);
    lines.push_all(others.map(|line| match line.strip_prefix("  lost:") {
        Some(lost) => format!("  {}{lost}", colours.lost("lost:")),
        None => match line.strip_prefix("  late:") {
            Some(late) => format!("  {}{late}", colours.lost("late:")),
            None => line,
        },
    }));
}

/// Returns a place in the sources as rustc writes it.
fn arrow(location: &SourceLocation) -> String {
    let SourceLocation { file, line, column } = location;
    format!("  --> {}:{line}:{column}", path(file))
}
