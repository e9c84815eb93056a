//! What a session reports of a failing order: it is brought to few switches, tried again, and its
//! files are put where they are looked for.

use super::exchange::{ExchangeSearch, ExchangedOrders};
use super::failing_order::FailingOrder;
use super::passed::PassedRun;
use super::process::By;
use super::race::Race;
use super::session::{FoundRun, Session};
use super::shorten::{Failing, Shortening};
use super::tries::TIME_OF_TRY;
use crate::channels::lock::lock;
use crate::channels::standard_error::say;
use crate::harness::files;
use crate::harness::program::Program;
use crate::schedule::explore::{Order, Schedule};
use std::path::{Path, PathBuf};
use std::{fs, io};
use yovanelum_record::sidecar::Sidecar;

/// The orders that are tried where no run has passed.
const OTHERS: [&str; 10] = [
    "s", "r1", "r2", "r3", "p2.1.9", "p2.2.9", "p3.3.9", "o1", "o2", "o3",
];

/// After how many hundredths of the time for a failing order it is shortened, tried again and its
/// race found.
const SHORTENED: u32 = 40;
const TRIED: u32 = 75;
const NAMED: u32 = 100;

impl Session {
    /// Reports a failing run where none has recorded anything, so that nothing brings it back.
    pub(super) fn report_nothing(&self, found: FoundRun) -> FailingOrder {
        let (task, ran) = (found.task, found.ran);
        let failure = ran.failure.unwrap_or_else(|| unreachable!("it has failed"));
        let nothing = lock(&self.counts).nothing_in_words(&self.name, Some(&failure));
        let said = self.without_folder(&ran.said, &ran.target);
        say(&format!("{nothing}\n{}", said.trim_end()));
        FailingOrder::without_schedule(&task.order, failure)
    }

    /// Looks for the fewest switches, tries what brings the failure back, puts the files where they
    /// are looked for, and reports all.
    pub(super) fn report(&self, first: FoundRun) -> FailingOrder {
        let (task, mut ran) = (first.task, first.ran);
        let order = task.order.clone();
        let failure = ran
            .failure
            .clone()
            .unwrap_or_else(|| unreachable!("it has failed"));
        let Some(schedule) = ran.schedule.take() else {
            let found = FailingOrder::without_schedule(&order, failure.clone());
            say(&format!(
                "{}: {} failed: {}\n{}",
                self.name, order, failure.0, ran.said
            ));
            return found;
        };
        let mut failing = Failing {
            order,
            schedule,
            ran,
        };
        if !self.has_named_order() {
            let until = self.budget.until(SHORTENED);
            let shortening = Shortening::new(&self.program, 0, failure.clone(), until);
            let passed = self.passed_near(&failing);
            failing = shortening.shorten(failing, passed.as_ref());
        }
        let mut found = FailingOrder::new(&failing, task, failure);
        found.run = (first.runs, first.took);
        let journal = journal_in(&failing.ran.target);
        self.try_again(&failing, journal.as_deref(), &mut found);
        self.find_race(&mut failing, journal.as_deref(), &mut found);
        if let Some(journal) = &journal {
            self.put(journal, &failing, &mut found);
        }
        if found.is_kept(&failing) {
            self.keep_order(&failing, &mut found);
        }
        let (counts, search) = (lock(&self.counts), lock(&self.search));
        let asked = self.asked();
        let lines = found.in_words(&self.name, asked.as_ref(), &counts, &search, &failing);
        let mut lines = self.without_folder(&lines, &failing.ran.target);
        if let (Some(named), Some(journal)) = (journal, &found.journal) {
            lines = with_files_of(journal, &named, lines);
        }
        say(&lines);
        found
    }

    /// Looks for the race, and gives the channels their names. An order that is asked for by its
    /// name was told before.
    fn find_race(&self, failing: &mut Failing, journal: Option<&Path>, found: &mut FailingOrder) {
        if !found.is_by_chance() && !self.has_named_order() {
            let orders = self.race_of(failing, found);
            found.race = match orders {
                Ok(orders) => {
                    let (run, until) = ((journal, &failing.schedule), self.budget.until(NAMED));
                    found.story = self.story_of(&orders, &found.failure, run, until);
                    Race::Exchange(orders.race)
                }
                Err(Some(tried)) => Race::NonePasses(tried),
                Err(None) => Race::Unknown,
            };
        }
        let Some(names) = journal.and_then(names_beside) else {
            return;
        };
        name_channels(&mut failing.schedule, &names);
        if let Race::Exchange(race) = &mut found.race {
            name_channels(&mut race.failing, &names);
        }
    }

    /// Tries how often the journal brings a failure back, the choices, and the order by its name.
    fn try_again(&self, failing: &Failing, journal: Option<&Path>, found: &mut FailingOrder) {
        let (failure, until) = (found.failure.clone(), self.budget.until(TRIED));
        let path = self.program.folder.join("found");
        if fs::write(&path, failing.schedule.text()).is_ok() {
            let order = found.following(&path);
            found.by_schedule = self.tries(&By::Order(&order), &failure, until);
        }
        let order = found.order_again().clone();
        found.by_order = self.tries(&By::Order(&order), &failure, until);
        let by_journal = |journal| self.tries(&By::Journal(journal), &failure, until);
        found.by_journal = journal.map(by_journal);
        if found.is_by_chance() {
            found.by_order = self.all_tries(&By::Order(&order), &failure, found.by_order, until);
        }
    }

    /// Returns the run nearest to this one that has passed.
    fn passed_near(&self, failing: &Failing) -> Option<PassedRun> {
        let (steps, has_timers) = (&failing.schedule.steps, failing.order.has_timers);
        lock(&self.passed).nearest(steps, has_timers).cloned()
    }

    /// Looks for the two steps that make the difference to a run that passes. If none of some other
    /// orders passes, it returns how many these were.
    fn race_of(
        &self,
        failing: &Failing,
        found: &FailingOrder,
    ) -> Result<ExchangedOrders, Option<usize>> {
        let has_timers = failing.order.has_timers;
        let passed = match self
            .passed_near(failing)
            .map_or_else(|| self.another(&failing.order), Ok)
        {
            Ok(passed) => passed,
            Err(tried) => return Err(Some(tried)),
        };
        let fails_each_time = found.by_schedule.failed == found.by_schedule.of;
        let failure = found.failure.clone();
        let until = self.budget.until(NAMED);
        let search =
            ExchangeSearch::new(&self.program, failure, has_timers, fails_each_time, until);
        search.find(failing, &passed).ok_or(None)
    }

    /// Keeps the order in a file of the test, by which it is made again.
    fn keep_order(&self, failing: &Failing, found: &mut FailingOrder) {
        let beside = found.journal.clone();
        let path = beside.unwrap_or_else(|| files::folder().join(files::file_name(&self.name)));
        let text = failing.schedule.text();
        let order = [("order", Some(text.as_bytes()))];
        match files::replace(&path, 0, &order) {
            Ok(path) => found.kept_order = Some(path.with_extension("order")),
            Err(error) => say(&format!("{} isn't written: {error}", path.display())),
        }
    }

    /// Returns a run that passes, by one of some other orders than this one, or how many were tried
    /// of which none passes.
    fn another(&self, failing: &Order) -> Result<PassedRun, usize> {
        let has_timers = failing.has_timers;
        let mut tried = 0;
        for text in OTHERS {
            let order = Order::read(text).map(|order| Order {
                has_timers,
                ..order
            });
            let Some(order) = order.filter(|order| order != failing) else {
                continue;
            };
            tried += 1;
            let ran = self.program.try_run(&By::Order(&order), 0, TIME_OF_TRY);
            let ran = ran.ok().filter(|ran| ran.failure.is_none());
            if let Some(schedule) = ran.and_then(|ran| ran.schedule) {
                return Ok(PassedRun {
                    steps: schedule.steps,
                    has_timers,
                });
            }
        }
        Err(tried)
    }

    /// Puts the files of a run where those of its test are. The schedule is among them where it
    /// brings the failure back more often than the journal.
    fn put(&self, journal: &Path, failing: &Failing, found: &mut FailingOrder) {
        let Ok(below) = journal.strip_prefix(&failing.ran.target) else {
            return;
        };
        let path = Program::this().target_folder.join(below);
        let by_journal = found.by_journal.unwrap_or_default();
        let is_better = found.by_schedule.are_more_than(by_journal);
        let run = RunFiles {
            journal,
            schedule: &failing.schedule,
            is_followed: is_better,
        };
        match run.put(&path, found) {
            Ok(path) => {
                found.schedule = is_better.then(|| path.with_extension("schedule"));
                found.journal = Some(path);
            }
            Err(error) => say(&format!("{} isn't written: {error}", path.display())),
        }
    }

    /// Returns lines in which the files of a run are those that were put in their place.
    fn without_folder(&self, lines: &str, target: &Path) -> String {
        let folder = self.program.folder.file_name();
        let part = folder.and_then(|folder| Some(Path::new(folder).join(target.file_name()?)));
        match part {
            Some(part) => lines.replace(format!("{}/", part.display()).as_str(), ""),
            None => lines.to_string(),
        }
    }
}

/// Reads the names beside a journal.
fn names_beside(journal: &Path) -> Option<Sidecar> {
    let text = fs::read_to_string(journal.with_extension("names")).ok()?;
    Sidecar::read(&text).ok()
}

/// Gives the channels of a schedule the names that those of the run have: some are read from the
/// sources, once the run has ended.
fn name_channels(schedule: &mut Schedule, names: &Sidecar) {
    for (number, name) in &names.channels {
        let number = *number as u32;
        let is_named = schedule.channels.iter().any(|(other, _)| *other == number);
        if !is_named {
            schedule.channels.push((number, name.clone()));
        }
    }
}

/// The files of a run, of which this is the journal.
struct RunFiles<'a> {
    journal: &'a Path,
    schedule: &'a Schedule,
    /// Whether a replay follows the schedule.
    is_followed: bool,
}

impl RunFiles<'_> {
    /// Replaces the files of a test, of which this is the journal, by these, with the race of the
    /// run. Returns the journal that was written.
    fn put(&self, path: &Path, found: &FailingOrder) -> io::Result<PathBuf> {
        let journal = fs::read_to_string(self.journal)?;
        let (mut names, mut page) = (self.beside("names")?, self.beside("html")?);
        let of_run = (self.schedule, found.failure.is_met());
        let text = names.as_deref().and_then(|it| std::str::from_utf8(it).ok());
        let with_race = text.and_then(|text| found.race.beside((path, &journal), text, of_run));
        if let Some(with_race) = with_race {
            names = Some(with_race.names.into_bytes());
            page = with_race.page.or(page);
        }
        let schedule = self
            .is_followed
            .then(|| self.schedule.text_beside(&journal));
        files::replace(
            path,
            0,
            &[
                ("journal", Some(journal.as_bytes())),
                ("names", names.as_deref()),
                ("html", page.as_deref()),
                ("schedule", schedule.as_deref().map(str::as_bytes)),
            ],
        )
    }

    /// Reads a file beside the journal, if it is there.
    fn beside(&self, extension: &str) -> io::Result<Option<Vec<u8>>> {
        match fs::read(self.journal.with_extension(extension)) {
            Err(error) if error.kind() == io::ErrorKind::NotFound => Ok(None),
            read => read.map(Some),
        }
    }
}

/// Returns lines in which the files of a test are those of this journal, which may be another one
/// than they say.
fn with_files_of(journal: &Path, named: &Path, lines: String) -> String {
    let stem = |path: &Path| Some(path.file_stem()?.to_string_lossy().into_owned());
    match (stem(named), stem(journal)) {
        (Some(before), Some(own)) if before != own => {
            ["journal", "html"].iter().fold(lines, |lines, extension| {
                lines.replace(
                    format!("/{before}.{extension}").as_str(),
                    &format!("/{own}.{extension}"),
                )
            })
        }
        _ => lines,
    }
}

/// Returns the journal that a run has written below this folder.
pub(super) fn journal_in(folder: &Path) -> Option<PathBuf> {
    let mut folders = vec![folder.to_path_buf()];
    while let Some(folder) = folders.pop() {
        for entry in fs::read_dir(folder).ok()?.flatten() {
            let path = entry.path();
            if path.is_dir() {
                folders.push(path);
            } else if path
                .extension()
                .is_some_and(|extension| extension == "journal")
            {
                return Some(path);
            }
        }
    }
    None
}

#[cfg(test)]
mod tests {
    use super::*;

    #[test]
    fn channels_have_the_names_of_the_run_where_the_test_gave_none() {
        let mut schedule = Schedule::new(String::new());
        schedule.channels = vec![(1, "given".to_string())];
        let names = r#"{"channels": {"0": "config", "1": "other"}}"#;
        name_channels(&mut schedule, &Sidecar::read(names).unwrap());
        let wanted = [(1, "given".to_string()), (0, "config".to_string())];
        assert_eq!(schedule.channels, wanted);
    }
}
