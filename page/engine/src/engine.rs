//! The run that a page has open, and what it asks of it: by the same functions that `yovanelum
//! why`, the adapter and `ttd` use.

use crate::beside::Beside;
use crate::opening::{Played, is_journal, play};
use crate::part::{Part, word, word_or_none};
use crate::search::{Wanted, hits};
use crate::shim::alloc::Global;
use crate::source::rw_answers::{Opened, debug_page, salvage_page, session_page};
use crate::source::rw_findings::Stretches;
use crate::source::rw_lines::StreamFault;
use crate::source::rw_navigator::{Move, Visitor};
use crate::{columns, found, levels, states};
use yovanelum_reader::account::Account;
use yovanelum_reader::debugger::Channel;
use yovanelum_record::journal::{self, Findings, FoundTraffic, Run, TextFault};
use yovanelum_record::sidecar::Sidecar;

/// Why there is no answer, in words.
#[derive(Debug, PartialEq, Eq)]
pub struct Fault(pub String);

pub type Answer = Result<Vec<Part>, Fault>;

pub(crate) fn no_memory<E>(_: E) -> Fault {
    Fault("no memory".to_string())
}

impl From<StreamFault> for Fault {
    fn from(fault: StreamFault) -> Fault {
        match fault {
            StreamFault::TooMuch => Fault("there are too many bytes of commands".to_string()),
            fault => no_memory(fault),
        }
    }
}

impl From<TextFault> for Fault {
    fn from(fault: TextFault) -> Fault {
        Fault(journal::said(fault))
    }
}

/// What a proved function returned, as it is.
fn text(bytes: crate::shim::Vec<u8>) -> Vec<Part> {
    vec![bytes.into_iter().collect::<Vec<u8>>().into()]
}

/// The run that is open, if one is, and its names.
#[derive(Default)]
pub struct Engine {
    opened: Option<Opened>,
    /// The machines at the place whose state was asked last.
    visitor: Option<Visitor<u64>>,
    names: Sidecar,
    kept: Kept,
}

/// What was found in the run, until its account is made.
type Kept = Option<(Findings, FoundTraffic)>;

impl Engine {
    /// Opens a journal text or a script. Returns the journal text of a script's run, which is empty
    /// of a journal text; how many entries there are, and the line of the script with the call that
    /// would wait; and the columns of the entries.
    ///
    /// # Errors
    ///
    /// Returns the first fault of the text. No run is open then.
    pub fn open(&mut self, text: Vec<u8>) -> Answer {
        *self = Engine::default();
        if is_journal(&text) {
            return self.hold(text, Part::Bytes(vec![]), None);
        }
        let Played { journal, waits } = play(&text)?;
        self.hold(journal.clone(), journal.into(), waits)
    }

    /// The text is dropped as soon as it is read: memory of the module never gets smaller, and the
    /// lists that follow have room where it was.
    fn hold(&mut self, journal: Vec<u8>, made: Part, waits: Option<u64>) -> Answer {
        let Some(opened) = Opened::of_text(Global, &journal).map_err(no_memory)? else {
            return Err(fault_of(&journal)?);
        };
        self.opened = Some(opened);
        let (visitor, parts) = self.on_run(|run, _, _| {
            let starts = columns::starts_of(&journal, run.specs().len(), run.len());
            drop(journal);
            let visitor = Visitor::open(Global, &run.0).map_err(no_memory)?;
            let counts = vec![word(run.len()), word_or_none(waits)];
            let mut parts = vec![made, counts.into()];
            parts.extend(columns::of(run, starts));
            Ok((visitor, parts))
        })?;
        self.visitor = Some(visitor);
        Ok(parts)
    }

    /// Takes the text of a file of names for the run, or none if it is empty.
    ///
    /// # Errors
    ///
    /// Returns what is wrong with the text. The run has no names then.
    pub(crate) fn name(&mut self, text: &[u8]) -> Answer {
        self.names = Sidecar::default();
        self.names = names_of(text)?;
        Ok(vec![])
    }

    fn opened(&mut self) -> Result<&mut Opened, Fault> {
        self.opened
            .as_mut()
            .ok_or_else(|| Fault("no run is open".to_string()))
    }

    /// Asks something of the run that is open, of its names, and of what was found. If it panics,
    /// no run is open any more.
    fn on_run<R>(
        &mut self,
        ask: impl FnOnce(&Run, &Sidecar, &mut Kept) -> Result<R, Fault>,
    ) -> Result<R, Fault> {
        self.opened()?;
        let (run, paused) = self.opened.take().expect("a run is open").pause();
        let run = Run::of(run);
        let answer = ask(&run, &self.names, &mut self.kept);
        self.opened = Some(Opened::resume(run.0, paused));
        answer
    }

    /// The states at these places, as [`states::push`] has them, and none for a place that there
    /// isn't.
    pub fn states(&mut self, places: &[u64]) -> Answer {
        self.opened()?;
        let (run, paused) = self.opened.take().expect("a run is open").pause();
        let mut debugger = self.visitor.take().expect("a run is open").resume(run);
        let mut out = vec![];
        for place in places {
            if debugger.step(Move::Goto(*place)).is_ok() {
                let world = debugger.state();
                let channels = (0..).map_while(|channel| world.channel(channel));
                states::push(&mut out, *place, channels.map(Channel::of));
            }
        }
        let (run, visitor) = debugger.pause();
        self.visitor = Some(visitor);
        self.opened = Some(Opened::resume(run, paused));
        Ok(vec![out.into()])
    }

    /// What commands write over the run.
    pub(crate) fn ask(&mut self, commands: &[u8]) -> Answer {
        Ok(text(self.opened()?.answers(Global, commands)?))
    }

    /// The losses of the run, as [`found::losses`] has them.
    pub fn losses(&mut self) -> Answer {
        self.on_run(|run, _, _| Ok(vec![found::losses(run).map_err(no_memory)?]))
    }

    /// All else that is found in the run, as [`found::of`] has it. It is kept for the account.
    pub fn found(&mut self) -> Answer {
        self.on_run(|run, _, kept| {
            let findings = run.findings()?;
            let traffic = run.traffic(&vec![true; run.specs().len()])?;
            let parts = found::of(&findings, &traffic);
            *kept = Some((findings, traffic));
            Ok(parts)
        })
    }

    /// The account of the run as `why --json` prints it.
    pub(crate) fn account(&mut self) -> Answer {
        self.on_run(|run, names, kept| {
            let account = match kept.take() {
                Some((findings, traffic)) => Account::of_found(run, names, &findings, traffic),
                None => Account::on(run, names)?,
            };
            Ok(vec![account.to_json().into()])
        })
    }

    /// How the run differs from another one, which has this journal text and this text of names:
    /// the lines that `why --against` prints, and the columns of [`Beside`].
    pub(crate) fn against(&mut self, journal: &[u8], names: &[u8]) -> Answer {
        let (other, other_names) = (Run::read(journal)?, names_of(names)?);
        self.on_run(|run, names, _| Ok(Beside::parts((run, names), (&other, &other_names))))
    }

    /// The levels of the receivers of some channels in stretches of places, as [`levels::of`] has
    /// them.
    pub fn levels(&mut self, channels: &[u8], stretches: Stretches) -> Answer {
        if stretches.count > levels::MOST_STRETCHES {
            return Err(Fault("there are too many stretches".to_string()));
        }
        self.on_run(|run, _, _| {
            Ok(vec![
                levels::of(run, stretches, channels).map_err(no_memory)?,
            ])
        })
    }

    /// The calls that have a text, as [`hits`] has them. These names say how calls are written.
    pub(crate) fn search(&mut self, names: &[u8], wanted: &Wanted) -> Answer {
        let names = names_of(names)?;
        self.on_run(|run, _, _| Ok(vec![hits(run, &names, wanted).into()]))
    }
}

/// What commands write over the run of a journal text, or the line of its first fault.
pub(crate) fn debug(journal: &[u8], commands: &[u8]) -> Answer {
    Ok(text(debug_page(Global, journal, commands)?))
}

/// What a session writes.
pub(crate) fn session(input: &[u8]) -> Answer {
    Ok(text(session_page(Global, input)?))
}

/// What is left of a journal text that may be truncated: how many bytes its whole lines have, and
/// the journal text of their run.
pub(crate) fn salvage(journal: &[u8]) -> Answer {
    salvage_page(Global, journal).map(text).map_err(no_memory)
}

/// Returns the first fault of a journal text that has one, in words.
fn fault_of(journal: &[u8]) -> Result<Fault, Fault> {
    let line = debug_page(Global, journal, b"")?;
    let line: Vec<u8> = line.into_iter().collect();
    Ok(Fault(String::from_utf8_lossy(&line).trim_end().to_string()))
}

fn names_of(text: &[u8]) -> Result<Sidecar, Fault> {
    if text.is_empty() {
        return Ok(Sidecar::default());
    }
    let text = std::str::from_utf8(text).map_err(|_| Fault("it is not UTF-8".to_string()))?;
    // The page has read the keys that it uses. A later writer may have others in another form.
    Sidecar::read_or(text, |key, fault| match key {
        "version" | "window" => Err(fault),
        _ => Ok(()),
    })
    .map_err(Fault)
}
