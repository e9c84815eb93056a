//! The command `yovanelum`: `why` prints the report on a journal, or where it differs from another
//! one, and `open` writes the page with the run inside.
//!
//! It is in the library since it uses parts of it that no other program may.

use crate::account::against::Against;
use crate::report::{self, Report, page, terminal};
use std::ffi::OsString;
use std::fs;
use std::io::{IsTerminal, Write};
use std::path::{Path, PathBuf};
use yovanelum_record::journal::{self, Run, TextFault};
use yovanelum_record::look::{address, at_call, has_colours};
use yovanelum_record::sidecar::{Sidecar, read_whole};

const USAGE: &str = "\
Usage: yovanelum why JOURNAL [--sources | --json | --sarif] [--no-picture]
       yovanelum why JOURNAL --against JOURNAL [--json]
       yovanelum open JOURNAL
       yovanelum dap [--port PORT]

why    prints what was found in the run of a journal: which values were lost, by whom and where
       In a terminal it draws what receivers had to receive after each call
       --sources prints with it the lines of the sources that haven't been written since
       --json    prints it as an object
       --sarif   prints it as a SARIF log
       --no-picture        draws nothing
       --against JOURNAL   prints instead which call differs first from another run of the same test
open   writes the page with the run inside beside the journal, and prints its name
dap    starts the debug adapter for an editor, the program yovanelum-dap

Sidecar are read from the file NAME.names beside NAME.journal.
";

/// The option by which nothing is drawn.
const NO_PICTURE: &str = "--no-picture";

/// What the command line asks for.
enum Verb {
    /// Whether it draws in a terminal comes with it.
    Why(Form, bool),
    Against(PathBuf, Form),
    Open,
    Help,
}

/// What `why` prints.
#[derive(Clone, Copy, PartialEq, Eq)]
enum Form {
    Lines,
    /// With those of the sources.
    Sources,
    Json,
    Sarif,
}

impl Form {
    /// The form that an option asks for.
    fn of_option(option: &str) -> Option<Form> {
        match option {
            "--sources" => Some(Form::Sources),
            "--json" => Some(Form::Json),
            "--sarif" => Some(Form::Sarif),
            _ => None,
        }
    }

    /// The option that asks for it.
    fn option(self) -> &'static str {
        match self {
            Form::Lines => "",
            Form::Sources => "--sources",
            Form::Json => "--json",
            Form::Sarif => "--sarif",
        }
    }
}

/// Why the command ends before its work is done. Each is one line.
enum Fault {
    /// The journal is refused. The line is on standard output, as that of `ttd check`.
    Refused(TextFault),
    Usage(String),
    Read(String),
    Write(String),
}

impl Fault {
    fn status(&self) -> u8 {
        match self {
            Fault::Refused(TextFault::NoMemory) => 5,
            Fault::Refused(_) => 1,
            Fault::Usage(_) => 2,
            Fault::Read(_) | Fault::Write(_) => 4,
        }
    }
}

/// Runs the command `yovanelum` with these words, for a program that has it as one of its own:
/// `why` prints the report on a journal, and `open` writes the page with its run inside.
///
/// It prints to `out`, and what it tells beside that to `told`. `page` is the page without a run, a
/// file that comes with this crate: `built/yovanelum.html`. The words are those after the program's
/// name, and `--help` prints them all. `dap`, which starts another program, is refused as unknown.
///
/// Returns the status to end with: 0, or 1 if the journal is refused, 2 for other words, 4 if a
/// file can't be read or written, and 5 without memory.
///
/// # Examples
///
/// ```
/// use std::io;
///
/// let words = ["why", "no.journal"].map(Into::into);
/// let status = yovanelum::command(words, b"", &mut io::stdout(), &mut io::stderr());
/// assert_eq!(status, 4); // there is no such file
/// ```
pub fn command(
    words: impl IntoIterator<Item = OsString>,
    page: &[u8],
    out: &mut (impl Write + IsTerminal),
    told: &mut impl Write,
) -> u8 {
    let done = parsed(words).and_then(|(verb, path)| match verb {
        Verb::Help => write_to(out, USAGE),
        Verb::Why(form, draws) => why(&Journal::read(&path)?, (form, draws), out, told),
        Verb::Against(other, form) => {
            let runs = [Journal::read(&path)?, Journal::read(&other)?];
            against(&runs, form, out, told)
        }
        Verb::Open => open(&Journal::read(&path)?, page, out, told),
    });
    let Err(fault) = done else { return 0 };
    // Where this can't be written, there is no better way to say so than the status.
    let _ = match &fault {
        Fault::Refused(TextFault::NoMemory) => writeln!(told, "no memory"),
        Fault::Refused(fault) => writeln!(out, "{}", journal::said(*fault)),
        Fault::Usage(line) => write!(told, "yovanelum: {line}\n\n{USAGE}"),
        Fault::Read(line) => writeln!(told, "read error: {line}"),
        Fault::Write(line) => writeln!(told, "write error: {line}"),
    };
    fault.status()
}

/// Reads the command line.
fn parsed(words: impl IntoIterator<Item = OsString>) -> Result<(Verb, PathBuf), Fault> {
    let usage = |line: &str| Err(Fault::Usage(line.to_string()));
    let (mut form, mut other, mut names) = (Form::Lines, None, vec![]);
    let mut draws = true;
    let mut words = words.into_iter();
    while let Some(word) = words.next() {
        match word.to_str() {
            Some("--help" | "-h") => return Ok((Verb::Help, PathBuf::new())),
            Some(flag) if Form::of_option(flag).is_some() => {
                if form != Form::Lines {
                    return usage("give one of `--sources`, `--json` and `--sarif`");
                }
                form = Form::of_option(flag).unwrap_or(form);
            }
            Some(NO_PICTURE) => draws = false,
            Some("--against") if other.is_some() => return usage("give one `--against`"),
            Some("--against") => match words.next() {
                Some(path) => other = Some(PathBuf::from(path)),
                None => return usage("`--against` needs the journal of another run"),
            },
            Some(flag) if flag.len() > 1 && flag.starts_with('-') => {
                return usage(&format!("there is no option `{flag}`"));
            }
            _ => names.push(word),
        }
    }
    let mut names = names.into_iter();
    let Some(verb) = names.next() else {
        return usage("a command is missing");
    };
    let verb = match (verb.to_str(), form) {
        (Some("why"), Form::Sarif | Form::Sources) if other.is_some() => {
            return usage(&format!("`--against` has no `{}`", form.option()));
        }
        (Some("why"), form) => match other {
            Some(other) => Verb::Against(other, form),
            None => Verb::Why(form, draws),
        },
        (Some("open"), _) if !draws => return usage("`--no-picture` is an option of `why`"),
        (Some("open"), _) if other.is_some() => return usage("`--against` is an option of `why`"),
        (Some("open"), Form::Lines) => Verb::Open,
        (Some("open"), form) => {
            return usage(&format!("`{}` is an option of `why`", form.option()));
        }
        _ => return usage(&format!("there is no command `{}`", verb.to_string_lossy())),
    };
    match (names.next(), names.next()) {
        (Some(path), None) => Ok((verb, path.into())),
        (None, _) => usage("the journal is missing"),
        (Some(_), Some(_)) => usage("give one journal"),
    }
}

fn write_to(out: &mut impl Write, text: &str) -> Result<(), Fault> {
    out.write_all(text.as_bytes())
        .and_then(|()| out.flush())
        .map_err(|error| Fault::Write(error.to_string()))
}

/// A journal's file.
struct Journal {
    path: PathBuf,
    text: Vec<u8>,
}

/// What is found in a journal, and the text of the names that were read, which are left out if they
/// can't be.
struct Found {
    report: Report,
    names: String,
}

impl Journal {
    fn read(path: &Path) -> Result<Journal, Fault> {
        let text = read_whole(path)
            .map_err(|error| Fault::Read(format!("{}: {error}", path.display())))?;
        Ok(Journal {
            path: path.to_path_buf(),
            text,
        })
    }

    /// Returns the names and their text. Names that can't be read are left out, and a line says so.
    fn names(&self, told: &mut impl Write) -> (Sidecar, String) {
        let read = Sidecar::beside(&self.path, &self.text).unwrap_or_else(|fault| {
            let path = self.path.with_extension("names");
            let _ = writeln!(told, "yovanelum: {} is left out: {fault}", path.display());
            None
        });
        read.unwrap_or_else(|| (Sidecar::default(), Sidecar::default().to_json()))
    }

    /// Finds what is in the run.
    fn find(&self, told: &mut impl Write) -> Result<Found, Fault> {
        let (names, text) = self.names(told);
        let report = Report::new(&self.text, &names).map_err(Fault::Refused)?;
        Ok(Found {
            report,
            names: text,
        })
    }

    /// Returns the path of the page.
    fn page(&self) -> PathBuf {
        match self.path.extension() {
            Some(extension) if extension == "journal" => self.path.with_extension("html"),
            _ => {
                let mut path = self.path.clone().into_os_string();
                path.push(".html");
                path.into()
            }
        }
    }
}

/// Prints the account of the run.
fn why(
    journal: &Journal,
    (form, draws): (Form, bool),
    out: &mut (impl Write + IsTerminal),
    told: &mut impl Write,
) -> Result<(), Fault> {
    let (names, _) = journal.names(told);
    let run = Run::with_callers(&journal.text, &names).map_err(Fault::Refused)?;
    let mut report = Report::on(&run, &names).map_err(Fault::Refused)?;
    match form {
        Form::Lines => {}
        Form::Sources => {
            let written = fs::metadata(&journal.path).and_then(|file| file.modified());
            report = report.with_sources(written.map_err(|error| Fault::Read(error.to_string()))?);
        }
        Form::Json => return write_to(out, &format!("{}\n", report.account().to_json())),
        Form::Sarif => return write_to(out, &report::sarif(report.account())),
    }
    let (page, call) = (journal.page(), report.call());
    let look = if page.is_file() {
        address(&absolute(&page), call)
    } else {
        format!(
            "`yovanelum open {}`, {}",
            journal.path.display(),
            at_call(call)
        )
    };
    let has_colours = has_colours(out.is_terminal());
    if !out.is_terminal() {
        return write_to(out, &report.text(Some(look), has_colours));
    }
    let drawn = draws.then_some((&run, &names));
    let terminal = (terminal::width(), has_colours);
    write_to(out, &report.text_for_terminal(look, terminal, drawn))
}

/// Prints which call of the first run differs first from the second one.
fn against(
    [here, there]: &[Journal; 2],
    form: Form,
    out: &mut impl Write,
    told: &mut impl Write,
) -> Result<(), Fault> {
    let names = [here.names(told).0, there.names(told).0];
    let read = |journal: &Journal| Run::read(&journal.text).map_err(Fault::Refused);
    let runs = [read(here)?, read(there)?];
    let found = Against::of((&runs[0], &names[0]), (&runs[1], &names[1]));
    if form == Form::Json {
        return write_to(out, &format!("{}\n", found.to_json()));
    }
    let lines = found.lines.iter().map(|line| format!("{line}\n"));
    write_to(out, &lines.collect::<String>())
}

/// Writes the page with the run and its account inside, and prints its name.
fn open(
    journal: &Journal,
    page: &[u8],
    out: &mut impl Write,
    told: &mut impl Write,
) -> Result<(), Fault> {
    let Found { report, names } = journal.find(told)?;
    let name = journal.path.file_name().unwrap_or_default();
    let path = journal.page();
    let written = Sidecar::with_account(&names, &report.account().to_json_for_page())
        .and_then(|names| {
            page::with_run(
                page,
                &name.to_string_lossy(),
                &journal.text,
                names.as_bytes(),
            )
            .ok_or_else(|| "the page has no element for a run".to_string())
        })
        .and_then(|page| fs::write(&path, page).map_err(|error| error.to_string()));
    written.map_err(|fault| Fault::Write(format!("{}: {fault}", path.display())))?;
    write_to(out, &format!("{}\n", path.display()))?;
    // Beside the name, which a script may read.
    let address = address(&absolute(&path), report.call());
    let _ = writeln!(told, "look: {address}");
    Ok(())
}

fn absolute(path: &Path) -> PathBuf {
    std::path::absolute(path).unwrap_or_else(|_| path.to_path_buf())
}
