//! The account of a run: what was found in it, in one order and in one choice of words.
//!
//! The report of a failing test, `yovanelum why` and the page show it, and may not differ. Facts
//! are ordered by what ended the test: what those that failed were told last comes first. Its words
//! say what was found, and add no judgement: a test may lose values on purpose, and fail for
//! another reason. `docs/use/ACCOUNT.md` in the repository has each form.

pub mod against;
mod asked;
mod call_order;
mod closings;
mod columns;
mod fact;
mod failed;
mod failure;
mod finding;
mod history;
mod json;
mod last_change;
mod lateness;
mod locked;
mod losses;
mod marked;
mod marking;
mod naming;
mod nothing_came;
mod panicked;
mod reading;
mod rest;
mod saying;
mod silence;
#[cfg(test)]
mod tests;
mod times;
mod traffic;
mod unknown;
mod value;
mod waits;
mod watches;
mod window;
#[cfg(test)]
mod windowed;
mod woken;

pub use call_order::{LeftSaid, RaceSaid};
pub use fact::{Fact, FactStep, Level, Role};
pub use failed::Failed;
pub use lateness::PendingTask;
pub use rest::Rest;
pub use saying::Saying;
pub use waits::WaitAtEnd;
use yovanelum_record::listed::{IntoList, Keep, PushAll};

use failure::{Failure, FailureAt};
use finding::{Finding, orders};
use history::History;
use lateness::Lateness;
use naming::Naming;
use std::cell::OnceCell;
use times::WindowTimes;
use traffic::Traffic;
use window::WindowSaid;
use woken::Causes;
use yovanelum_record::journal::{Findings, FoundTraffic, Loss, Run, RunEntry, TextFault};
use yovanelum_record::sidecar::{Sidecar, SourceLocation};
use yovanelum_record::visible;

/// How many facts a report tells in full. The others are counted.
const MOST_TOLD: usize = 3;

/// How many facts have words. Those beyond are counted alone.
const MOST_FACTS: usize = 100;

/// What is known of a run, and how its text calls it.
struct Context<'a> {
    run: &'a Run,
    names: &'a Sidecar,
    history: &'a History,
    naming: &'a Naming<'a>,
    times: WindowTimes<'a>,
    failure: &'a Failure,
    findings: &'a Findings,
    traffic: &'a Traffic,
    lateness: Lateness<'a>,
    // Found where they are first asked for.
    causes: OnceCell<Causes>,
}

impl Context<'_> {
    /// Returns what may have woken calls that wait.
    fn causes(&self) -> &Causes {
        self.causes
            .get_or_init(|| Causes::of(self.run, self.names, self.history))
    }

    /// Returns the text of the panic that ended the test, or of the error that it returned.
    fn failure_text(&self) -> Option<&str> {
        let end = self.failure.end()?;
        end.text(self.names)
    }

    /// Returns who panicked, or returned an error: the thread of the test, which may have made no
    /// call.
    fn who_panicked(&self, at: &FailureAt) -> String {
        if let Some(actor) = at.actor {
            return self.naming.actor(actor);
        }
        let test = || Some(self.names.ending.test.as_ref()?.thread.as_str());
        let who = match at.panic {
            Some(panic) => self.names.ending.panics[panic].who.as_deref(),
            None => test().filter(|thread| !thread.is_empty()),
        };
        who.map_or("a thread".to_string(), visible::name)
    }

    /// Returns the place at which the calls with stamps up to this one had been made. It is behind
    /// the lead of a window.
    fn place_of(&self, stamp: u64) -> u64 {
        self.run.place_of_stamp(stamp).max(self.history.lead)
    }

    /// Returns since when something is, as `call 3` or `the start`.
    fn since(&self, place: u64) -> String {
        match place {
            0 => "the start".to_string(),
            place if place == self.history.lead => window::BEFORE.to_string(),
            place => visible::call(place),
        }
    }

    /// Returns a call by its number, and in a dump by the one that snapshots have for it, with the
    /// time: `call 3`, or `call 3 (67108867 in snapshots, at 03:12:41.120 UTC)`.
    fn call_in_snapshots(&self, place: u64) -> String {
        let (call, stamp) = (visible::call(place), self.run.entry(place).stamp);
        let Some(number) = window::number_in_snapshots(self.names, stamp) else {
            return call;
        };
        let at = self.times.at(stamp);
        let at = at.map_or(String::new(), |time| format!(", {}", time.clock()));
        format!("{call} ({number} in snapshots{at})")
    }

    /// Returns the call with this number as a step of a fact, with what was called and what there
    /// is to say of it.
    fn step(&self, place: u64, role: Role, what: String, said: String) -> FactStep {
        let entry = self.run.entry(place);
        let location = self.naming.call_source(entry.channel, place);
        let dropped = self
            .dropped_at(place, &entry)
            .filter(|_| role == Role::Close);
        let location = location.or(dropped.as_ref().and_then(|(location, _)| *location));
        let said = match dropped {
            Some((_, function)) if said.is_empty() => format!("in {function}"),
            _ => said,
        };
        let is_cancelled = role == Role::Close && self.is_cancelled(place, &entry);
        let said = match (is_cancelled, said.is_empty()) {
            (true, true) => "cancelled".to_string(),
            (true, false) => format!("cancelled {said}"),
            (false, _) => said,
        };
        FactStep {
            place,
            role,
            actor: Some(entry.actor.into()),
            location: location.cloned(),
            made: self.naming.made(entry.channel, entry.handle).cloned(),
            time: self.times.at(entry.stamp),
            stamp: window::number_in_snapshots(self.names, entry.stamp),
            cells: [
                visible::call(place),
                what,
                self.naming.actor(entry.actor.into()),
                location.map_or(String::new(), visible::line_of),
                self.with_time(said, entry.stamp),
            ],
        }
    }

    /// Returns what there is to say of the call with this stamp, and in a dump when it was made,
    /// and by which number snapshots call it.
    fn with_time(&self, said: String, stamp: u64) -> String {
        let time = self.times.at(stamp).map(|time| time.text());
        let number = window::number_in_snapshots(self.names, stamp);
        let number = number.map(|number| format!("{number} in snapshots"));
        let mut known = time.into_iter().listed();
        known.push_all(number);
        let mut all = vec![said, known.join(", ")];
        all.keep(|text| !text.is_empty());
        all.join("; ")
    }

    /// Returns the call with this number as a step, as it was called.
    fn call_step(&self, place: u64, role: Role, said: String) -> FactStep {
        let call = self.naming.call(place, &self.run.entry(place));
        self.step(place, role, call, said)
    }

    /// Returns where the drop that led to this place was made, if it is that of the last sender or
    /// receiver of its channel, with the function.
    fn dropped_at(
        &self,
        place: u64,
        entry: &RunEntry,
    ) -> Option<(Option<&SourceLocation>, String)> {
        let functions = self.names.dropped_in.get(&entry.channel.into())?;
        let is_receiver = self
            .history
            .channel(entry.channel)
            .is_receiver(entry.handle);
        let later = self
            .history
            .channel(entry.channel)
            .handles()
            .any(|(_, handle)| {
                let dropped = handle.dropped.is_some_and(|(dropped, _)| dropped > place);
                handle.is_receiver == is_receiver && !handle.is_weak && dropped
            });
        let which = u64::from(is_receiver);
        let function = functions.get(&which).filter(|_| !later)?;
        let places = self.names.dropped_at.get(&entry.channel.into());
        let place = places.and_then(|places| self.naming.source(*places.get(&which)?));
        Some((place, visible::path(function)))
    }

    /// Returns who dropped a handle, and how: `clerk dropped`, or `clerk was cancelled and
    /// dropped`.
    fn who_dropped(&self, place: u64) -> String {
        let entry = self.run.entry(place);
        let who = self.naming.actor(entry.actor.into());
        if self.is_cancelled(place, &entry) {
            format!("{who} was cancelled and dropped")
        } else {
            format!("{who} dropped")
        }
    }

    /// Whether the call that led to a place was made by the drop of a task that hadn't ended.
    fn is_cancelled(&self, place: u64, entry: &RunEntry) -> bool {
        let cancelled = self.names.matching.cancelled.get(&entry.channel.into());
        let index = self.history.index_on_channel(place) as u64;
        cancelled.is_some_and(|indexes| indexes.binary_search(&index).is_ok())
    }

    /// Returns what caused a fact before the window as its step: at the place where that begins.
    fn step_before(&self, what: String) -> FactStep {
        let nothing = String::new;
        let before = window::BEFORE.to_string();
        let cells = [before, what, nothing(), nothing(), nothing()];
        FactStep::new(self.history.lead, Role::Cause, cells)
    }

    /// Returns what ended the test as a step of a fact.
    fn failure_step(&self, failure: FailureAt, what: String, said: String) -> FactStep {
        let location = self.naming.source(failure.location.unwrap_or(usize::MAX));
        let actor = failure.actor.map(|actor| self.naming.actor(actor));
        let cells = [
            failure.name.to_string(),
            what,
            actor.unwrap_or_default(),
            location.map_or(String::new(), visible::line_of),
            said,
        ];
        FactStep {
            actor: failure.actor,
            location: location.cloned(),
            ..FactStep::new(failure.place, Role::Failure, cells)
        }
    }

    /// Returns the end of the run as a step of a fact.
    fn end_step(&self, what: String, said: String) -> FactStep {
        let nothing = String::new;
        let cells = ["the end".to_string(), what, nothing(), nothing(), said];
        FactStep::new(self.run.len(), Role::End, cells)
    }
}

/// What was found in a run.
#[derive(Debug)]
pub struct Account {
    /// How many calls and channels the run has.
    calls: u64,
    channels: u64,
    /// Where the run begins in a window, what is said of that.
    pub window: Option<WindowSaid>,
    /// That it is a replay which left the order that it followed.
    pub left: Option<LeftSaid>,
    /// Which two of its steps decide whether it fails.
    pub race: Option<RaceSaid>,
    /// Why not all of the run is known.
    pub unknown: Vec<String>,
    /// How the test failed.
    pub failed: Option<Failed>,
    /// The facts in their order, as many as have words.
    pub facts: Vec<Fact>,
    /// The facts that aren't told in full, counted by kind.
    pub rest: Rest,
    /// What is said where no value was lost.
    pub nothing: Option<String>,
    pub waiting: Vec<WaitAtEnd>,
    /// The tasks that wait for something else, where the run hangs or failed since a call waited.
    pub pending: Vec<PendingTask>,
    /// The stamps between which the account says something about tasks.
    pub told_of_tasks: Vec<(u64, u64)>,
    losses: Vec<Loss>,
    // The place of what ended the test.
    failure: Option<u64>,
    /// The call that is worth looking at first, or 0 for the start.
    pub look: u64,
    /// The folder that the paths of sources are relative to.
    pub root: Option<String>,
}

impl Account {
    /// Returns the facts in their order, as many as have words, with their levels.
    pub fn with_levels(&self) -> impl Iterator<Item = (Level, &Fact)> {
        let facts = self.facts.iter().enumerate();
        facts.map(|(index, fact)| (fact.level(index == 0, self.failed.is_some()), fact))
    }

    /// Makes the account of the run of this journal text.
    ///
    /// # Errors
    ///
    /// Returns the first fault of the text, if it is not a journal.
    pub fn read(text: &[u8], names: &Sidecar) -> Result<Account, TextFault> {
        Account::on(&Run::with_callers(text, names)?, names)
    }

    /// Makes the account of a run.
    ///
    /// # Errors
    ///
    /// Returns `NoMemory` if there is none for what is found.
    pub fn on(run: &Run, names: &Sidecar) -> Result<Account, TextFault> {
        let findings = run.findings()?;
        let found = traffic::told(run, &findings)?;
        Ok(Account::of_found(run, names, &findings, found))
    }

    /// Makes the account of a run of which this was found, and the history is known.
    fn with(
        run: &Run,
        names: &Sidecar,
        findings: &Findings,
        history: &History,
    ) -> Result<Account, TextFault> {
        let traffic = Traffic::of(run, names, findings, traffic::told(run, findings)?);
        Ok(Account::made(run, names, findings, history, &traffic))
    }

    /// Makes the account of a run of which this was found, where this came on its channels: at
    /// least on those of which there is something to tell.
    pub fn of_found(
        run: &Run,
        names: &Sidecar,
        findings: &Findings,
        found: FoundTraffic,
    ) -> Account {
        let traffic = Traffic::of(run, names, findings, found);
        Account::made(run, names, findings, &History::of(run, names), &traffic)
    }

    fn made(
        run: &Run,
        names: &Sidecar,
        findings: &Findings,
        history: &History,
        traffic: &Traffic,
    ) -> Account {
        let context = Context {
            run,
            names,
            history,
            naming: &Naming::new(names, history),
            times: WindowTimes::of(names),
            failure: &Failure::of(run, names, history),
            findings,
            traffic,
            lateness: Lateness::of(run, names, history),
            causes: OnceCell::new(),
        };
        let found = Finding::all(&context);
        let unknown = unknown::lines(&context);
        let worded = found.iter().take(MOST_FACTS);
        let facts: Vec<_> = worded.map(|finding| finding.fact(&context)).listed();
        let failure = context.failure.end().map(|end| end.place);
        Account {
            calls: history.calls(),
            channels: run.specs().len() as u64,
            window: WindowSaid::of_run(names, run),
            left: LeftSaid::of(run, names),
            race: RaceSaid::of(run, names),
            nothing: nothing(&context, &unknown, &facts),
            failed: Failed::of(&context),
            unknown,
            failure,
            look: match facts.first() {
                Some(fact) => fact.look,
                None => failure.unwrap_or(run.len()).max(history.first_place()),
            },
            facts,
            rest: Rest::of(&found),
            waiting: waits::all(&context, &found[..Finding::told_in_full(&found)]),
            losses: context.traffic.losses().iter().map(|it| it.loss).listed(),
            pending: if has_waited(&context, &found) {
                lateness::pending(&context)
            } else {
                vec![]
            },
            told_of_tasks: context.lateness.into_spans(),
            root: names.ending.root.clone(),
        }
    }
}

/// Whether a run hangs, or what is found tells of a call that waited.
fn has_waited(context: &Context<'_>, found: &[Finding]) -> bool {
    let told = &found[..Finding::told_in_full(found)];
    context.names.ending.hangs || told.iter().any(|it| it.order() == orders::WAITED)
}

/// Whether a fact says what failed, or that sends reached nobody.
fn is_explained(facts: &[Fact]) -> bool {
    let first = facts.first();
    first.is_some_and(|fact| fact.order <= orders::UNREACHED)
}

/// Returns what is said where no value was lost. Where not all is known, that isn't said.
fn nothing(context: &Context<'_>, unknown: &[String], facts: &[Fact]) -> Option<String> {
    let calls = visible::counted(context.history.calls(), "call");
    let channels = visible::counted(context.run.specs().len() as u64, "channel");
    match (unknown, facts) {
        ([], _) if context.traffic.losses().is_empty() && !is_explained(facts) => {
            Some(format!("no value was lost in {calls} on {channels}"))
        }
        ([_, ..], []) => Some(format!("nothing was found in {calls} on {channels}")),
        _ => None,
    }
}
