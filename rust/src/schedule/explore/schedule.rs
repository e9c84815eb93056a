//! The schedule of a run: who was let go, one after the other. Its file is text, one line for each.

use std::fmt::Write as _;
use std::path::Path;
use std::sync::Arc;
use std::time::Duration;
use std::{fs, io};
use yovanelum_record::listed::IntoList;

/// The first line of the file.
const FIRST_LINE: &str = "yovanelum schedule 1";

/// One who was let go.
#[derive(Clone, Debug, PartialEq, Eq)]
pub(crate) struct Step {
    /// Its number among those who stood, where 0 is the one who goes on without a switch.
    pub(crate) chosen: u32,
    /// How many stood.
    pub(crate) count: u32,
    pub(crate) turn: Turn,
    pub(crate) what: What,
    /// Where the call is made in the source, or where the task waited that is polled.
    pub(crate) at: Option<(String, u32)>,
    /// What the task waited for that is polled, as `Mutex::lock`.
    pub(crate) waited_for: Option<String>,
    pub(crate) who: Arc<str>,
}

impl Step {
    /// Whether it is a call of a recorded channel.
    pub(crate) fn is_call(&self) -> bool {
        matches!(self.what, What::Call { .. })
    }
}

#[cfg(test)]
impl Step {
    /// A poll of the first of two who stood.
    pub(crate) fn poll_of(who: &str, turn: Turn) -> Step {
        Step {
            chosen: 0,
            count: 2,
            turn,
            what: What::Poll,
            at: None,
            waited_for: None,
            who: who.into(),
        }
    }
}

/// Whether the one that went before is held for this one.
#[derive(Clone, Copy, Debug, PartialEq, Eq)]
pub(crate) enum Turn {
    /// It couldn't go on.
    Free,
    /// It is this one, which goes on.
    Same,
    /// It could have gone on.
    Switch,
}

/// What one who stands is to do.
#[derive(Clone, Debug, PartialEq, Eq)]
pub(crate) enum What {
    /// The poll of a task.
    Poll,
    /// Time passes, while these stand.
    Time { ready: String },
    /// This call on a channel, by a handle.
    Call {
        word: String,
        channel: u32,
        handle: u32,
    },
    /// A call of a type of tokio's own, as `Mutex::lock`.
    Point { called: String },
}

/// How a run has ended, as far as its own process knows.
#[derive(Clone, Copy, Debug, PartialEq, Eq)]
pub(crate) enum RunEnd {
    Passed,
    Failed,
    /// Everybody waits forever.
    Hung,
}

/// What is known of a run.
#[derive(Clone, Debug, PartialEq, Eq)]
pub(crate) struct Schedule {
    pub(crate) order: String,
    pub(crate) end: RunEnd,
    /// Whether the runtime of the test was seen to wait for a timer.
    pub(crate) has_timers: bool,
    /// Whether it was kept busy while tasks were held, so that nobody saw whether it waits for one.
    pub(crate) was_busy: bool,
    /// How many milliseconds timers of the machine's clock went on while tasks were held.
    pub(crate) lost: u32,
    /// How many choices were made while a thread ran.
    pub(crate) restless: u32,
    /// How many calls were made by callers without a name.
    pub(crate) unnamed: u32,
    /// Whether it was let go before its end, since it had too many steps.
    pub(crate) was_too_long: bool,
    /// Whether threads were taken to sleep by a clock.
    pub(crate) by_clock: bool,
    /// Whether calls of tokio's own were chosen.
    pub(crate) has_points: bool,
    /// The likely cause, if nothing was recorded.
    pub(crate) nothing: Option<String>,
    /// Whether polls of named tasks were chosen though nothing was recorded.
    pub(crate) polls_alone: bool,
    /// The number of the first step that isn't that of the schedule which was followed.
    pub(crate) diverged: Option<u32>,
    /// The hash of the journal beside it.
    pub(crate) journal: Option<u64>,
    /// The names of channels by number.
    pub(crate) channels: Vec<(u32, String)>,
    pub(crate) steps: Vec<Step>,
    /// The time of the run's clock at those steps where it isn't that of the step before.
    pub(crate) clock: Vec<(u32, Duration)>,
    /// Where tasks wait at the end of a run that fails.
    pub(crate) waiting: Vec<WaitingTask>,
}

/// A task that waits.
#[derive(Clone, Debug, PartialEq, Eq)]
pub(crate) struct WaitingTask {
    /// What it waits for, as `Mutex::lock`.
    pub(crate) what: String,
    /// Where that is in the source.
    pub(crate) at: Option<(String, u32)>,
    pub(crate) who: Arc<str>,
}

impl Schedule {
    pub(crate) fn new(order: String) -> Schedule {
        Schedule {
            order,
            end: RunEnd::Passed,
            has_timers: false,
            was_busy: false,
            lost: 0,
            restless: 0,
            unnamed: 0,
            was_too_long: false,
            by_clock: false,
            has_points: false,
            nothing: None,
            polls_alone: false,
            diverged: None,
            journal: None,
            channels: Vec::new(),
            steps: Vec::new(),
            clock: Vec::new(),
            waiting: Vec::new(),
        }
    }

    /// Notes the time of the clock at the last step.
    pub(super) fn note_clock(&mut self, now: Duration) {
        let before = self.clock.last().map_or(Duration::ZERO, |(_, time)| *time);
        if now != before {
            self.clock.push((self.steps.len() as u32 - 1, now));
        }
    }

    /// Returns how many steps have others to choose.
    pub(crate) fn choices(&self) -> usize {
        self.steps.iter().filter(|step| step.count > 1).count()
    }

    /// Returns how many switches it has.
    pub(crate) fn switches(&self) -> usize {
        self.steps
            .iter()
            .filter(|step| step.turn == Turn::Switch)
            .count()
    }

    /// Returns the steps at which it isn't the order without a switch.
    pub(crate) fn other_steps(&self) -> Vec<(u32, u32)> {
        let numbered = (0..).zip(&self.steps);
        let other = numbered.filter(|(_, step)| step.chosen > 0);
        other.map(|(number, step)| (number, step.chosen)).listed()
    }

    /// Returns the text of its file.
    pub(crate) fn text(&self) -> String {
        let end = match self.end {
            RunEnd::Passed => "passed",
            RunEnd::Failed => "failed",
            RunEnd::Hung => "hung",
        };
        let mut text = format!("{FIRST_LINE}\norder {}\nend {end}\n", self.order);
        let marks = [
            ("timers", self.has_timers),
            ("busy", self.was_busy),
            ("too-long", self.was_too_long),
            ("by-clock", self.by_clock),
            ("points", self.has_points),
            ("polls-alone", self.polls_alone),
        ];
        for (mark, _) in marks.iter().filter(|(_, is_set)| *is_set) {
            let _ = writeln!(text, "{mark}");
        }
        if self.lost > 0 {
            let _ = writeln!(text, "lost {}", self.lost);
        }
        let _ = write!(
            text,
            "restless {}\nunnamed {}\n",
            self.restless, self.unnamed
        );
        if let Some(cause) = &self.nothing {
            let _ = writeln!(text, "nothing {}", one_line(cause));
        }
        if let Some(diverged) = self.diverged {
            let _ = writeln!(text, "parted {diverged}");
        }
        if let Some(journal) = self.journal {
            let _ = writeln!(text, "journal {journal:016x}");
        }
        for (number, name) in &self.channels {
            let _ = writeln!(text, "channel {number} {}", one_line(name));
        }
        for waiting in &self.waiting {
            let (what, at) = (one_word(&waiting.what), place(waiting.at.as_ref()));
            let _ = writeln!(text, "waits {what} {at} {}", one_line(&waiting.who));
        }
        for (step, time) in &self.clock {
            let _ = writeln!(text, "clock {step} {}", time.as_nanos());
        }
        let _ = writeln!(text, "steps {}", self.steps.len());
        self.steps.iter().for_each(|step| step.write(&mut text));
        text
    }

    /// Returns the text of its file beside this journal of the same run.
    pub(crate) fn text_beside(&self, journal: &str) -> String {
        let mut schedule = self.clone();
        schedule.journal = Some(super::run::hash_of(journal));
        schedule.text()
    }

    /// Reads the text of a file.
    ///
    /// # Errors
    ///
    /// Returns what is wrong with it, with the line.
    pub(crate) fn read(text: &str) -> Result<Schedule, String> {
        let mut lines = (1..).zip(text.lines());
        if lines.next().is_none_or(|(_, line)| line != FIRST_LINE) {
            return Err(format!("line 1: no `{FIRST_LINE}`"));
        }
        let mut read = Schedule::new(String::new());
        let mut rest = None;
        for (number, line) in lines.by_ref() {
            let fault = || format!("line {number}: `{line}`");
            if let Some(count) = line.strip_prefix("steps ") {
                rest = Some(count.parse::<usize>().map_err(|_| fault())?);
                break;
            }
            read.add_line(line).ok_or_else(fault)?;
        }
        for (number, line) in lines {
            let step = Step::read(line).ok_or_else(|| format!("line {number}: `{line}`"))?;
            read.steps.push(step);
        }
        if rest == Some(read.steps.len()) {
            Ok(read)
        } else {
            Err("it ends too early".to_string())
        }
    }

    fn add_line(&mut self, line: &str) -> Option<()> {
        let (word, rest) = line.split_once(' ').unwrap_or((line, ""));
        match word {
            "order" => self.order = rest.to_string(),
            "end" => {
                self.end = match rest {
                    "passed" => RunEnd::Passed,
                    "failed" => RunEnd::Failed,
                    "hung" => RunEnd::Hung,
                    _ => return None,
                }
            }
            "timers" => self.has_timers = true,
            "busy" => self.was_busy = true,
            "lost" => self.lost = rest.parse().ok()?,
            "too-long" => self.was_too_long = true,
            "by-clock" => self.by_clock = true,
            "points" => self.has_points = true,
            "polls-alone" => self.polls_alone = true,
            "restless" => self.restless = rest.parse().ok()?,
            "unnamed" => self.unnamed = rest.parse().ok()?,
            "nothing" => self.nothing = Some(rest.to_string()),
            "parted" => self.diverged = Some(rest.parse().ok()?),
            "journal" => self.journal = Some(u64::from_str_radix(rest, 16).ok()?),
            "waits" => {
                let mut words = rest.splitn(3, ' ');
                self.waiting.push(WaitingTask {
                    what: words.next()?.replace("%20", " "),
                    at: read_place(words.next()?)?,
                    who: words.next()?.into(),
                });
            }
            "clock" => {
                let (step, time) = rest.split_once(' ')?;
                let time = Duration::from_nanos(time.parse().ok()?);
                self.clock.push((step.parse().ok()?, time));
            }
            "channel" => {
                let (number, name) = rest.split_once(' ')?;
                self.channels.push((number.parse().ok()?, name.to_string()));
            }
            _ => return None,
        }
        Some(())
    }

    /// Reads a file.
    ///
    /// # Errors
    ///
    /// Returns an error if the file can't be read, or is no schedule.
    pub(crate) fn of_file(path: &Path) -> io::Result<Schedule> {
        let text = fs::read_to_string(path)?;
        Schedule::read(&text).map_err(io::Error::other)
    }
}

impl Step {
    /// Whether time passes.
    pub(crate) fn is_time(&self) -> bool {
        matches!(self.what, What::Time { .. })
    }

    fn write(&self, text: &mut String) {
        let mark = match self.turn {
            Turn::Free => '.',
            Turn::Same => '=',
            Turn::Switch => '!',
        };
        let _ = write!(text, "{} {} {mark} ", self.chosen, self.count);
        let _ = match &self.what {
            What::Poll => {
                let waited_for = self.waited_for.as_deref().unwrap_or("-");
                write!(text, "poll {}", one_word(waited_for))
            }
            What::Time { ready } => write!(text, "time {}", one_word(ready)),
            What::Call {
                word,
                channel,
                handle,
            } => write!(text, "{word} {channel}.{handle}"),
            What::Point { called } => write!(text, "point {}", one_word(called)),
        };
        let at = place(self.at.as_ref());
        let _ = writeln!(text, " {at} {}", one_line(&self.who));
    }

    fn read(line: &str) -> Option<Step> {
        let mut words = line.splitn(7, ' ');
        let chosen = words.next()?.parse().ok()?;
        let count = words.next()?.parse().ok()?;
        let turn = match words.next()? {
            "." => Turn::Free,
            "=" => Turn::Same,
            "!" => Turn::Switch,
            _ => return None,
        };
        let mut waited_for = None;
        let what = match (words.next()?, words.next()?) {
            ("poll", "-") => What::Poll,
            ("poll", awaited) => {
                waited_for = Some(awaited.replace("%20", " "));
                What::Poll
            }
            ("point", called) => What::Point {
                called: called.replace("%20", " "),
            },
            ("time", ready) => What::Time {
                ready: ready.replace("%20", " "),
            },
            (word, on) => {
                let (channel, handle) = on.split_once('.')?;
                What::Call {
                    word: word.to_string(),
                    channel: channel.parse().ok()?,
                    handle: handle.parse().ok()?,
                }
            }
        };
        let at = read_place(words.next()?)?;
        let who = words.next()?.into();
        Some(Step {
            chosen,
            count,
            turn,
            what,
            at,
            waited_for,
            who,
        })
    }
}

/// Returns the word for a place in the source.
fn place(at: Option<&(String, u32)>) -> String {
    match at {
        Some((file, line)) => format!("{line}:{}", one_word(file)),
        None => "-".to_string(),
    }
}

/// Reads it.
fn read_place(word: &str) -> Option<Option<(String, u32)>> {
    if word == "-" {
        return Some(None);
    }
    let (line, file) = word.split_once(':')?;
    Some(Some((file.replace("%20", " "), line.parse().ok()?)))
}

fn one_line(text: &str) -> String {
    text.replace(['\n', '\r'], " ")
}

fn one_word(text: &str) -> String {
    one_line(text).replace(' ', "%20")
}

#[cfg(test)]
mod tests {
    use super::*;

    fn schedule() -> Schedule {
        let step = |chosen, who: &str, what, at| Step {
            chosen,
            what,
            at,
            ..Step::poll_of(who, if chosen > 0 { Turn::Switch } else { Turn::Same })
        };
        let send = What::Call {
            word: "send".to_string(),
            channel: 3,
            handle: 0,
        };
        let time = What::Time {
            ready: "a reader".to_string(),
        };
        let mut schedule = Schedule::new("s1.1".to_string());
        (schedule.has_timers, schedule.was_busy, schedule.lost) = (true, true, 12);
        schedule.end = RunEnd::Hung;
        schedule.nothing = Some("no channel".to_string());
        schedule.diverged = Some(4);
        schedule.journal = Some(0xab);
        schedule.channels = vec![(3, "prices of today".to_string())];
        schedule.waiting = vec![WaitingTask {
            what: "Semaphore::acquire".to_string(),
            at: Some(("src/a.rs".to_string(), 7)),
            who: "bob 2".into(),
        }];
        schedule.clock = vec![(2, Duration::from_millis(40))];
        schedule.steps = vec![
            step(0, "a reader", What::Poll, None),
            step(1, "admin", send, Some(("tests/my shop.rs".to_string(), 7))),
            step(0, "(time)", time, None),
            step(0, "ann", What::Poll, Some(("src/a.rs".to_string(), 9))),
        ];
        schedule.steps[3].waited_for = Some("Mutex::lock".to_string());
        schedule
    }

    #[test]
    fn a_file_has_the_whole_schedule() {
        let wanted = "yovanelum schedule 1\norder s1.1\nend hung\ntimers\nbusy\nlost 12\nrestless 0\nunnamed 0\nnothing no channel\nparted 4\n\
            journal 00000000000000ab\nchannel 3 prices of today\nwaits Semaphore::acquire 7:src/a.rs bob 2\nclock 2 40000000\nsteps 4\n0 2 = poll - - a reader\n\
            1 2 ! send 3.0 7:tests/my%20shop.rs admin\n0 2 = time a%20reader - (time)\n\
            0 2 = poll Mutex::lock 9:src/a.rs ann\n";
        assert_eq!(schedule().text(), wanted);
        assert_eq!(Schedule::read(wanted), Ok(schedule()));
        assert_eq!((schedule().switches(), schedule().choices()), (1, 4));
        assert_eq!(schedule().other_steps(), [(1, 1)]);
    }

    #[test]
    fn calls_of_tokio_s_own_are_steps_of_a_file() {
        let mut schedule = Schedule::new("s".to_string());
        schedule.has_points = true;
        schedule.steps = vec![Step {
            count: 1,
            what: What::Point {
                called: "Mutex::lock".to_string(),
            },
            at: Some(("src/a.rs".to_string(), 7)),
            ..Step::poll_of("ann", Turn::Free)
        }];
        let wanted = "yovanelum schedule 1\norder s\nend passed\npoints\nrestless 0\nunnamed 0\nsteps 1\n\
            0 1 . point Mutex::lock 7:src/a.rs ann\n";
        assert_eq!(schedule.text(), wanted);
        assert_eq!(Schedule::read(wanted), Ok(schedule));
    }

    #[test]
    fn a_file_that_is_no_schedule_is_refused_with_its_line() {
        let text = schedule().text();
        let fault = |text: &str| Schedule::read(text).unwrap_err();
        assert_eq!(fault(""), "line 1: no `yovanelum schedule 1`");
        assert_eq!(
            fault(&text.replace("end hung", "end well")),
            "line 3: `end well`"
        );
        assert_eq!(
            fault(&text.replace("1 2 ! send", "1 2 send")),
            "line 17: `1 2 send 3.0 7:tests/my%20shop.rs admin`"
        );
        let (cut, _) = text.rsplit_once("0 2 =").unwrap();
        assert_eq!(fault(cut), "it ends too early");
    }
}
