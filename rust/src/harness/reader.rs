//! Who makes the report of a run: what is linked, by the feature `report`, or else the program that
//! the command names, which is started for each report.

use std::fmt;
use yovanelum_record::conditions::NamedCondition;
use yovanelum_record::journal::{Run, TextFault, said};
use yovanelum_record::question::{Meets, MessageFault, ReportOptions, ReportParts};
use yovanelum_record::sidecar::Sidecar;

/// Why there is no report.
#[derive(Debug)]
pub(super) enum NoReport {
    /// The run can't be read.
    Run(TextFault),
    /// The reader says that it can't, for this reason.
    #[cfg_attr(feature = "report", allow(dead_code))]
    Refused(String),
    /// No program is named that could make it.
    #[cfg_attr(feature = "report", allow(dead_code))]
    NoReader,
    /// The program, and what is wrong with it.
    #[cfg_attr(feature = "report", allow(dead_code))]
    Reader(String, ReaderFault),
}

/// What is wrong with the program that reads runs.
#[derive(Debug)]
#[cfg_attr(feature = "report", allow(dead_code))]
pub(super) enum ReaderFault {
    NotStarted(std::io::Error),
    Message(MessageFault),
    /// It ended in this way before it had returned all.
    Ended(std::process::ExitStatus),
    /// It was ended, since it had not returned all after so many seconds.
    Late(u64),
}

impl fmt::Display for NoReport {
    fn fmt(&self, f: &mut fmt::Formatter<'_>) -> fmt::Result {
        match self {
            NoReport::Run(fault) => f.write_str(&said(*fault)),
            NoReport::Refused(why) => f.write_str(why),
            NoReport::NoReader => f.write_str("this test is built without the feature `report`"),
            NoReport::Reader(program, fault) => match fault {
                ReaderFault::NotStarted(error) => write!(f, "{program} isn't started: {error}"),
                ReaderFault::Message(fault) => write!(f, "{program}: {fault}"),
                ReaderFault::Ended(status) => write!(f, "{program} ended early: {status}"),
                ReaderFault::Late(seconds) => {
                    write!(f, "{program} returned nothing within {seconds} s")
                }
            },
        }
    }
}

impl std::error::Error for NoReport {
    fn source(&self) -> Option<&(dyn std::error::Error + 'static)> {
        match self {
            NoReport::Reader(_, ReaderFault::NotStarted(error)) => Some(error),
            NoReport::Reader(_, ReaderFault::Message(fault)) => Some(fault),
            _ => None,
        }
    }
}

/// Makes the report of a run with this journal and these names.
///
/// # Errors
///
/// Returns why there is none.
pub(super) fn report(
    run: &Run,
    journal: &str,
    names: &Sidecar,
    options: ReportOptions,
) -> Result<ReportParts, NoReport> {
    reading::report((run, journal), names, options)
}

/// Returns whether a run meets a condition up to this stamp, also in words.
///
/// # Errors
///
/// Returns why that isn't known.
pub(super) fn meets(
    run: Run,
    names: Sidecar,
    asked: (&NamedCondition, u64),
) -> Result<(Meets, String), NoReport> {
    reading::meets(run, names, asked)
}

/// The reader that is linked.
#[cfg(feature = "report")]
mod reading {
    use super::*;
    use std::fs;
    use yovanelum_reader::answers;

    /// The page, which comes with the sources of this crate. It isn't part of the program, which
    /// would get a third of a megabyte larger.
    const PAGE: &str = concat!(env!("CARGO_MANIFEST_DIR"), "/built/yovanelum.html");

    pub(super) fn report(
        run: (&Run, &str),
        names: &Sidecar,
        options: ReportOptions,
    ) -> Result<ReportParts, NoReport> {
        let page = fs::read(PAGE).map_err(|error| format!("{PAGE}: {error}"));
        let page = page.as_deref().map_err(String::clone);
        answers::report(run, names.clone(), &options, page).map_err(NoReport::Run)
    }

    pub(super) fn meets(
        run: Run,
        names: Sidecar,
        asked: (&NamedCondition, u64),
    ) -> Result<(Meets, String), NoReport> {
        answers::meets(run, names, asked).map_err(|fault| NoReport::Refused(fault.to_string()))
    }
}

/// The program that reads runs.
#[cfg(not(feature = "report"))]
mod reading {
    use super::*;
    use std::ffi::OsString;
    use std::io::{self, BufReader, Write};
    use std::process::{Child, Command, Stdio};
    use std::sync::mpsc::{self, RecvTimeoutError};
    use std::time::Duration;
    use std::{env, thread};
    use yovanelum_record::question::{Answer, Question, READER, WORD};

    /// How long the program may take, and how much longer for each megabyte of the journal.
    const LIMIT: u64 = 10;

    pub(super) fn report(
        (_, journal): (&Run, &str),
        names: &Sidecar,
        options: ReportOptions,
    ) -> Result<ReportParts, NoReport> {
        let question = Question::Report(options);
        match ask(&question, journal.to_string(), names.to_json())? {
            Answer::Report(report) => Ok(report),
            Answer::Refused(why) => Err(NoReport::Refused(why)),
            Answer::Condition(..) => Err(NoReport::Refused("no report".to_string())),
        }
    }

    pub(super) fn meets(
        run: Run,
        names: Sidecar,
        (asked, last): (&NamedCondition, u64),
    ) -> Result<(Meets, String), NoReport> {
        let condition = asked.to_string();
        let question = Question::Condition { condition, last };
        let journal = run.text().map_err(|_| NoReport::Run(TextFault::NoMemory))?;
        let journal = String::from_utf8_lossy(&journal).into_owned();
        match ask(&question, journal, names.to_json())? {
            Answer::Condition(meets, words) => Ok((meets, words)),
            Answer::Refused(why) => Err(NoReport::Refused(why)),
            Answer::Report(_) => Err(NoReport::Refused("no condition".to_string())),
        }
    }

    /// Starts the program, and asks it.
    fn ask(question: &Question, journal: String, names: String) -> Result<Answer, NoReport> {
        let reader: OsString = env::var_os(READER).ok_or(NoReport::NoReader)?;
        let fault = |fault| NoReport::Reader(reader.to_string_lossy().into_owned(), fault);
        let limit = LIMIT + (journal.len() >> 20) as u64;
        // What it prints beside its answer belongs to no test.
        let mut child = Command::new(&reader)
            .arg(WORD)
            .stdin(Stdio::piped())
            .stdout(Stdio::piped())
            .stderr(Stdio::null())
            .spawn()
            .map_err(|error| fault(ReaderFault::NotStarted(error)))?;
        let answer = exchange(&mut child, question.clone(), (journal, names), limit);
        if let Err(ReaderFault::Late(_)) = answer {
            let _ = child.kill();
        }
        let ended = child.wait();
        answer.map_err(|why| match (why, ended) {
            // It says more than that nothing came.
            (ReaderFault::Message(MessageFault::Malformed), Ok(status)) if !status.success() => {
                fault(ReaderFault::Ended(status))
            }
            (why, _) => fault(why),
        })
    }

    /// Writes the question and reads the answer, on threads, so that a program that does neither is
    /// not waited for.
    fn exchange(
        child: &mut Child,
        question: Question,
        (journal, names): (String, String),
        limit: u64,
    ) -> Result<Answer, ReaderFault> {
        let gone = || ReaderFault::NotStarted(io::ErrorKind::BrokenPipe.into());
        let mut input = child.stdin.take().ok_or_else(gone)?;
        let output = child.stdout.take().ok_or_else(gone)?;
        let (sender, answer) = mpsc::channel();
        let name = || thread::Builder::new().name("yovanelum-reader".into());
        // A program that doesn't read all has said why, or has ended.
        let writes = move || {
            drop(
                question
                    .write(&mut input, &journal, &names)
                    .and(input.flush()),
            )
        };
        name().spawn(writes).map_err(ReaderFault::NotStarted)?;
        let reads = move || drop(sender.send(Answer::read(&mut BufReader::new(output))));
        name().spawn(reads).map_err(ReaderFault::NotStarted)?;
        match answer.recv_timeout(Duration::from_secs(limit)) {
            Ok(answer) => answer.map_err(ReaderFault::Message),
            Err(RecvTimeoutError::Timeout) => Err(ReaderFault::Late(limit)),
            Err(RecvTimeoutError::Disconnected) => {
                Err(ReaderFault::Message(MessageFault::Malformed))
            }
        }
    }
}
