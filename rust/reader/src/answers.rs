//! What is returned for a question about a run: in the process of a test where the reader is linked
//! into it, and else by a program of its own.

use crate::debugger::named::Entities;
use crate::debugger::recorded::{Recorded, opened};
use crate::debugger::{JournalError, Walk};
use crate::report::{Report, page};
use std::io::{self, BufRead, Write};
use yovanelum_record::conditions::NamedCondition;
use yovanelum_record::journal::{Run, TextFault, said};
use yovanelum_record::question::{
    Answer, Meets, MessageFault, Question, ReportOptions, ReportParts,
};
use yovanelum_record::sidecar::Sidecar;

/// Makes the report of a run, which has this journal, and its page over this one.
///
/// # Errors
///
/// Returns why the run can't be read.
pub fn report(
    (run, journal): (&Run, &str),
    mut names: Sidecar,
    options: &ReportOptions,
    page: Result<&[u8], String>,
) -> Result<ReportParts, TextFault> {
    let report = Report::on(run, &names)?;
    names.account = Some(report.account().to_json());
    names.keep_tasks_told(&report.account().told_of_tasks);
    let names = names.to_json();
    let with_run = |page| {
        let (journal, names) = (journal.as_bytes(), names.as_bytes());
        page::with_run(page, &options.file, journal, names)
            .ok_or_else(|| "it has no element for a run".to_string())
    };
    let page = page.and_then(with_run);
    let (call, told, pending) = (report.call(), report.told_lines(), report.pending_lines());
    let report = match options.sources_before {
        Some(before) => report.with_sources(before),
        None => report,
    };
    Ok(ReportParts {
        call,
        told,
        pending,
        look: Report::look_label(options.has_colours),
        text: report.text(None, options.has_colours),
        names,
        page,
    })
}

/// Returns whether a run meets a condition by names up to this stamp, also in words.
///
/// # Errors
///
/// Returns why the run can't be walked.
pub fn meets(
    run: Run,
    names: Sidecar,
    (asked, last): (&NamedCondition, u64),
) -> Result<(Meets, String), JournalError> {
    let until = run.place_of_stamp(last);
    let (mut walk, recorded) = opened(run, names)?;
    let things = Entities::found_in(&walk, &recorded);
    let condition = things
        .condition(asked)
        .filter(|_| things.has_subject_of(asked));
    let Some(condition) = condition else {
        let names = things.names_of(asked.sort);
        let words = asked.unknown_among(&names);
        return Ok((Meets::Unknown(names), words));
    };
    walk.go_to(0);
    let hit = walk.find_forward(&condition);
    Ok(match hit.filter(|place| *place <= until) {
        Some(place) => {
            let how = how_met(&walk, &recorded, place);
            let words = format!("met: {asked}, at call {place}{how}");
            (Meets::Met(place), words)
        }
        None => (Meets::NotMet, format!("not met: {asked}")),
    })
}

/// Says which call led to a place.
fn how_met(walk: &Walk, recorded: &Recorded, place: u64) -> String {
    let Some(entry) = walk.entry(place) else {
        return String::new();
    };
    let call = recorded.call(place, &entry);
    let who = recorded.actor(entry.actor());
    let at = recorded.location(place, &entry);
    let at = at.and_then(|index| recorded.locations().get(index));
    let at = at.map_or(String::new(), |at| format!(" ({}:{})", at.file, at.line));
    format!(": `{who}` made {call}{at}")
}

/// Reads a question, and writes its answer.
///
/// # Errors
///
/// Returns the error of the writer. A question that can't be read has the answer that it is
/// refused.
pub fn serve(input: &mut impl BufRead, out: &mut impl Write, page: &[u8]) -> io::Result<()> {
    let answer = match Question::read(input) {
        Ok((question, journal, names)) => answer(&question, &journal, &names, page),
        // The other side compares the versions of answers, too.
        Err(MessageFault::Version(_)) => Answer::Refused(String::new()),
        Err(fault) => Answer::Refused(fault.to_string()),
    };
    answer.write(out)
}

fn answer(question: &Question, journal: &[u8], names: &str, page: &[u8]) -> Answer {
    let read = Sidecar::read(names).and_then(|names| {
        let run = Run::with_callers(journal, &names).map_err(said)?;
        Ok((run, names))
    });
    let (run, names) = match read {
        Ok(read) => read,
        Err(why) => return Answer::Refused(why),
    };
    match question {
        Question::Report(options) => {
            let journal = String::from_utf8_lossy(journal);
            match report((&run, &journal), names, options, Ok(page)) {
                Ok(report) => Answer::Report(report),
                Err(fault) => Answer::Refused(said(fault)),
            }
        }
        Question::Condition { condition, last } => match condition.parse() {
            Ok(asked) => match meets(run, names, (&asked, *last)) {
                Ok((meets, words)) => Answer::Condition(meets, words),
                Err(fault) => Answer::Refused(fault.to_string()),
            },
            Err(fault) => Answer::Refused(fault.to_string()),
        },
    }
}
