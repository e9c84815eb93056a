//! What a failing test asks of the program that reads runs, over its standard input, and what that
//! returns, over its standard output.
//!
//! A message is a line with what it is and the version of its writer, and then parts: the length of
//! each in bytes, a line feed, and the bytes. Both sides are of one version, which is compared.

use std::fmt;
use std::io::{self, BufRead, Read, Write};
use std::time::{Duration, SystemTime, UNIX_EPOCH};

/// The word after which the program reads a question.
pub const WORD: &str = "__read";

/// The variable that names the program.
pub const READER: &str = "YOVANELUM_READER";

/// The version of these packages.
pub const VERSION: &str = env!("CARGO_PKG_VERSION");

/// What a report is to have beside what is in the run.
#[derive(Clone, Debug, PartialEq, Eq)]
pub struct ReportOptions {
    /// The name of the journal's file, which the page shows.
    pub file: String,
    pub has_colours: bool,
    /// Lines of the sources are shown that weren't written after this, if it is given.
    pub sources_before: Option<SystemTime>,
}

/// What is asked of a run, whose journal and names follow.
#[derive(Clone, Debug, PartialEq, Eq)]
pub enum Question {
    Report(ReportOptions),
    /// Whether the run meets a condition by names up to this stamp.
    Condition {
        condition: String,
        last: u64,
    },
}

/// What the report of a run has.
#[derive(Clone, Debug, PartialEq, Eq)]
pub struct ReportParts {
    /// The names, with the account.
    pub names: String,
    /// The call that is worth looking at first, or 0.
    pub call: u64,
    /// The text, but for its last line, which says where to look.
    pub text: String,
    /// How that line begins.
    pub look: String,
    /// The facts that are told in full, without colours.
    pub told: String,
    /// The tasks that wait for something else than a call of a channel.
    pub pending: Vec<String>,
    /// The page with the run inside, or why there is none.
    pub page: Result<Vec<u8>, String>,
}

/// What a run says of a condition.
#[derive(Clone, Debug, PartialEq, Eq)]
pub enum Meets {
    /// The call that met it first.
    Met(u64),
    NotMet,
    /// There is nothing of its name. These are the names that there are.
    Unknown(Vec<String>),
}

/// What is returned for a question.
#[derive(Clone, Debug, PartialEq, Eq)]
pub enum Answer {
    Report(ReportParts),
    /// Also in words.
    Condition(Meets, String),
    /// The run can't be read, for this reason.
    Refused(String),
}

/// Why a message can't be read.
#[derive(Debug)]
pub enum MessageFault {
    Io(io::Error),
    /// Its writer has another version, which is this.
    Version(String),
    /// It isn't one of these messages.
    Malformed,
}

impl fmt::Display for MessageFault {
    fn fmt(&self, f: &mut fmt::Formatter<'_>) -> fmt::Result {
        match self {
            MessageFault::Io(error) => error.fmt(f),
            MessageFault::Version(version) => {
                write!(
                    f,
                    "it is version {version}, and the test has version {VERSION}"
                )
            }
            MessageFault::Malformed => f.write_str("it returned something else than a report"),
        }
    }
}

impl std::error::Error for MessageFault {
    fn source(&self) -> Option<&(dyn std::error::Error + 'static)> {
        match self {
            MessageFault::Io(error) => Some(error),
            MessageFault::Version(_) | MessageFault::Malformed => None,
        }
    }
}

impl From<io::Error> for MessageFault {
    fn from(error: io::Error) -> MessageFault {
        match error.kind() {
            io::ErrorKind::UnexpectedEof => MessageFault::Malformed,
            _ => MessageFault::Io(error),
        }
    }
}

/// Writes the first line and the parts of a message.
fn write(out: &mut impl Write, what: &str, parts: &[&[u8]]) -> io::Result<()> {
    writeln!(out, "yovanelum-{what} {VERSION}")?;
    for part in parts {
        writeln!(out, "{}", part.len())?;
        out.write_all(part)?;
    }
    out.flush()
}

/// The parts of a message that is read.
struct Parts<'a, R>(&'a mut R);

impl<R: BufRead> Parts<'_, R> {
    /// Reads the first line, and returns what the message is.
    fn begin(input: &mut R) -> Result<(String, Parts<'_, R>), MessageFault> {
        let mut line = String::new();
        input.read_line(&mut line)?;
        let words = line.trim_end().strip_prefix("yovanelum-");
        let (what, version) = words
            .and_then(|words| words.split_once(' '))
            .ok_or(MessageFault::Malformed)?;
        if version != VERSION {
            return Err(MessageFault::Version(version.to_string()));
        }
        Ok((what.to_string(), Parts(input)))
    }

    fn bytes(&mut self) -> Result<Vec<u8>, MessageFault> {
        let mut line = String::new();
        self.0.read_line(&mut line)?;
        let length: u64 = line
            .trim_end()
            .parse()
            .map_err(|_| MessageFault::Malformed)?;
        let mut bytes = Vec::new();
        self.0.take(length).read_to_end(&mut bytes)?;
        (bytes.len() as u64 == length)
            .then_some(bytes)
            .ok_or(MessageFault::Malformed)
    }

    fn text(&mut self) -> Result<String, MessageFault> {
        String::from_utf8(self.bytes()?).map_err(|_| MessageFault::Malformed)
    }

    fn number(&mut self) -> Result<u64, MessageFault> {
        self.text()?.parse().map_err(|_| MessageFault::Malformed)
    }

    fn lines(&mut self) -> Result<Vec<String>, MessageFault> {
        Ok(self.text()?.lines().map(str::to_string).collect())
    }
}

impl Question {
    /// Writes the question about a run with this journal and these names.
    ///
    /// # Errors
    ///
    /// Returns the error of the writer.
    pub fn write(&self, out: &mut impl Write, journal: &str, names: &str) -> io::Result<()> {
        let run = [journal.as_bytes(), names.as_bytes()];
        match self {
            Question::Report(options) => {
                let colours: &[u8] = if options.has_colours { b"1" } else { b"0" };
                let before = options.sources_before.and_then(nanoseconds);
                let before = before.map_or(String::new(), |it| it.to_string());
                let parts = [
                    options.file.as_bytes(),
                    colours,
                    before.as_bytes(),
                    run[0],
                    run[1],
                ];
                write(out, "report", &parts)
            }
            Question::Condition { condition, last } => {
                let last = last.to_string();
                write(
                    out,
                    "condition",
                    &[condition.as_bytes(), last.as_bytes(), run[0], run[1]],
                )
            }
        }
    }

    /// Reads a question, with the journal and the names of its run.
    ///
    /// # Errors
    ///
    /// Returns why there is none.
    pub fn read(input: &mut impl BufRead) -> Result<(Question, Vec<u8>, String), MessageFault> {
        let (what, mut parts) = Parts::begin(input)?;
        let question = match what.as_str() {
            "report" => Question::Report(ReportOptions {
                file: parts.text()?,
                has_colours: parts.text()? == "1",
                sources_before: parts.text()?.parse().ok().map(time),
            }),
            "condition" => Question::Condition {
                condition: parts.text()?,
                last: parts.number()?,
            },
            _ => return Err(MessageFault::Malformed),
        };
        Ok((question, parts.bytes()?, parts.text()?))
    }
}

/// A time as nanoseconds since 1970, if it isn't before that.
fn nanoseconds(time: SystemTime) -> Option<u128> {
    time.duration_since(UNIX_EPOCH).ok().map(|it| it.as_nanos())
}

fn time(nanoseconds: u128) -> SystemTime {
    let seconds = (nanoseconds / 1_000_000_000) as u64;
    UNIX_EPOCH + Duration::new(seconds, (nanoseconds % 1_000_000_000) as u32)
}

impl Answer {
    /// Writes the answer.
    ///
    /// # Errors
    ///
    /// Returns the error of the writer.
    pub fn write(&self, out: &mut impl Write) -> io::Result<()> {
        match self {
            Answer::Report(report) => {
                let call = report.call.to_string();
                let pending = report.pending.join("\n");
                let (has_page, page): (&[u8], &[u8]) = match &report.page {
                    Ok(page) => (b"1", page),
                    Err(why) => (b"0", why.as_bytes()),
                };
                let texts = [
                    &report.names,
                    &call,
                    &report.text,
                    &report.look,
                    &report.told,
                    &pending,
                ];
                let mut parts: Vec<&[u8]> = texts.iter().map(|text| text.as_bytes()).collect();
                parts.extend([has_page, page]);
                write(out, "report", &parts)
            }
            Answer::Condition(meets, words) => write(
                out,
                "condition",
                &[meets.text().as_bytes(), words.as_bytes()],
            ),
            Answer::Refused(why) => write(out, "refused", &[why.as_bytes()]),
        }
    }

    /// Reads an answer.
    ///
    /// # Errors
    ///
    /// Returns why there is none.
    pub fn read(input: &mut impl BufRead) -> Result<Answer, MessageFault> {
        let (what, mut parts) = Parts::begin(input)?;
        Ok(match what.as_str() {
            "report" => Answer::Report(ReportParts {
                names: parts.text()?,
                call: parts.number()?,
                text: parts.text()?,
                look: parts.text()?,
                told: parts.text()?,
                pending: parts.lines()?,
                page: match parts.text()?.as_str() {
                    "1" => Ok(parts.bytes()?),
                    _ => Err(parts.text()?),
                },
            }),
            "condition" => {
                let meets = Meets::of_text(&parts.text()?).ok_or(MessageFault::Malformed)?;
                Answer::Condition(meets, parts.text()?)
            }
            "refused" => Answer::Refused(parts.text()?),
            _ => return Err(MessageFault::Malformed),
        })
    }
}

impl Meets {
    /// The text of a file that has this.
    pub fn text(&self) -> String {
        match self {
            Meets::Met(place) => format!("met {place}\n"),
            Meets::NotMet => "not met\n".to_string(),
            Meets::Unknown(names) => {
                let names = names.iter().map(|name| name.escape_debug());
                let lines = names.map(|name| format!("{name}\n"));
                format!("unknown\n{}", lines.collect::<String>())
            }
        }
    }

    /// Reads the text of such a file.
    pub fn of_text(text: &str) -> Option<Meets> {
        let mut lines = text.lines();
        match lines.next()? {
            "not met" => Some(Meets::NotMet),
            "unknown" => Some(Meets::Unknown(lines.map(str::to_string).collect())),
            line => Some(Meets::Met(line.strip_prefix("met ")?.parse().ok()?)),
        }
    }
}

#[cfg(test)]
mod tests {
    use super::*;

    fn report(page: Result<Vec<u8>, String>) -> Answer {
        Answer::Report(ReportParts {
            names: "{\n}\n".to_string(),
            call: 7,
            text: "error: a\n  é\n".to_string(),
            look: "look:".to_string(),
            told: String::new(),
            pending: vec!["one".to_string(), "two".to_string()],
            page,
        })
    }

    #[test]
    fn messages_are_read_as_they_were_written() {
        let options = |sources_before| {
            Question::Report(ReportOptions {
                file: "a test.journal".to_string(),
                has_colours: true,
                sources_before,
            })
        };
        let condition = Question::Condition {
            condition: "lagging audit".to_string(),
            last: 9,
        };
        let now = UNIX_EPOCH + Duration::new(1_800_000_000, 123_456_789);
        for question in [options(None), options(Some(now)), condition] {
            let mut bytes = Vec::new();
            question
                .write(&mut bytes, "ttd-journal 2\n", "{}\n")
                .unwrap();
            let (read, journal, names) = Question::read(&mut &*bytes).unwrap();
            assert_eq!(
                (read, &*journal, &*names),
                (question, &b"ttd-journal 2\n"[..], "{}\n")
            );
        }
        let names = vec!["audit".to_string(), "the \"screen\"".to_string()];
        for answer in [
            report(Ok(vec![0, 255, b'\n'])),
            report(Err("there is no page".to_string())),
            Answer::Condition(Meets::Met(3), "met".to_string()),
            Answer::Condition(Meets::NotMet, String::new()),
            Answer::Refused("no memory".to_string()),
        ] {
            let mut bytes = Vec::new();
            answer.write(&mut bytes).unwrap();
            assert_eq!(Answer::read(&mut &*bytes).unwrap(), answer);
        }
        assert_eq!(
            Meets::of_text(&Meets::Unknown(names).text()),
            Some(Meets::Unknown(vec![
                "audit".to_string(),
                "the \\\"screen\\\"".to_string(),
            ]))
        );
    }

    #[test]
    fn what_is_cut_or_of_another_version_is_refused() {
        let mut bytes = Vec::new();
        report(Ok(vec![1; 40])).write(&mut bytes).unwrap();
        for length in 0..bytes.len() {
            let read = Answer::read(&mut &bytes[..length]);
            assert!(
                matches!(
                    read,
                    Err(MessageFault::Malformed | MessageFault::Version(_))
                ),
                "{length}: {read:?}"
            );
        }
        let other = Answer::read(&mut &b"yovanelum-report 0.0.9\n"[..]).unwrap_err();
        assert_eq!(
            other.to_string(),
            format!("it is version 0.0.9, and the test has version {VERSION}")
        );
        let none = Answer::read(&mut &b"error: no such word\n"[..]).unwrap_err();
        assert_eq!(none.to_string(), "it returned something else than a report");
    }
}
