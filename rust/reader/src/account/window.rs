//! Why a run begins in a window, and which of its calls are those of the window.

use yovanelum_record::clock::{FLIGHT_START, utc};
use yovanelum_record::journal::Run;
use yovanelum_record::sidecar::{Sidecar, WindowNames};
use yovanelum_record::visible;

/// What a call is called that was made before the window, of which its journal has no place.
pub(super) const BEFORE: &str = "before the window";

/// Returns the number that snapshots have for the call with this stamp, if the run is a dump of a
/// flight recorder.
pub(super) fn number_in_snapshots(names: &Sidecar, stamp: u64) -> Option<u64> {
    (names.window.is_some() && stamp > FLIGHT_START).then_some(stamp)
}

/// The window of a run.
#[derive(Debug)]
pub struct WindowSaid {
    /// When and why it was written, and its calls by their numbers.
    pub text: String,
    /// By which numbers a snapshot calls the same calls.
    pub in_snapshots: Option<String>,
    pub(super) window: WindowNames,
}

impl WindowSaid {
    /// Returns what is said of a run, if it has a window.
    pub(super) fn of_run(names: &Sidecar, run: &Run) -> Option<WindowSaid> {
        let said = WindowSaid::of(names, run.len())?;
        let (first, last) = (said.window.lead + 1, run.len());
        if first > last {
            return Some(said);
        }
        let (from, to) = (run.entry(first).stamp, run.entry(last).stamp);
        let number = number_in_snapshots(names, from);
        let in_snapshots =
            number.map(|from| format!("calls {first} to {last} are {from} to {to} in snapshots"));
        Some(WindowSaid {
            in_snapshots,
            ..said
        })
    }

    /// Returns what is said of a run with `length` entries, if it has a window.
    fn of(names: &Sidecar, length: u64) -> Option<WindowSaid> {
        let window = names.window.clone()?;
        let at = window.at;
        let at = at.map_or(String::new(), |at| format!(" of {} UTC", utc(at)));
        let reason = visible::path(&window.reason);
        let text = format!("dump{at}: {reason}; {}", calls(window.lead, length));
        Some(WindowSaid {
            text,
            in_snapshots: None,
            window,
        })
    }
}

fn calls(lead: u64, length: u64) -> String {
    let calls = match length - lead.min(length) {
        0 => "no call".to_string(),
        1 => visible::call(length),
        _ => format!("calls {} to {length}", lead + 1),
    };
    match lead {
        0 => calls,
        1 => format!("{calls}; 1 leads to the window"),
        lead => format!("{calls}; 1 to {lead} lead to the window"),
    }
}

#[cfg(test)]
mod tests {
    use super::*;

    #[test]
    fn the_calls_keep_their_numbers() {
        for (lead, length, wanted) in [
            (
                117,
                20_117,
                "calls 118 to 20117; 1 to 117 lead to the window",
            ),
            (0, 5, "calls 1 to 5"),
            (1, 2, "call 2; 1 leads to the window"),
            (3, 3, "no call; 1 to 3 lead to the window"),
            (0, 0, "no call"),
        ] {
            assert_eq!(calls(lead, length), wanted);
        }
    }

    #[test]
    fn a_reason_is_on_one_line() {
        let window = WindowNames {
            reason: "asked\nfor".to_string(),
            ..WindowNames::default()
        };
        let mut names = Sidecar {
            window: Some(window),
            ..Sidecar::default()
        };
        let text = |names: &Sidecar| WindowSaid::of(names, 2).unwrap().text;
        assert_eq!(text(&names), "dump: asked\\nfor; calls 1 to 2");
        names.window.as_mut().unwrap().at = Some(0);
        let wanted = "dump of 1970-01-01 00:00:00.000 UTC: asked\\nfor; calls 1 to 2";
        assert_eq!(text(&names), wanted);
    }
}
