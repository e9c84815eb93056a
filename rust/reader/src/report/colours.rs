//! The colours of the report.

use crate::account::Level;

const BOLD: &str = "\x1b[1m";
const RED: &str = "\x1b[31m";
const GREEN: &str = "\x1b[32m";
const YELLOW: &str = "\x1b[33m";
const BLUE: &str = "\x1b[34m";
const CYAN: &str = "\x1b[36m";
const PLAIN: &str = "\x1b[0m";

/// Puts texts into colours, if it has any.
#[derive(Clone, Copy)]
pub(super) struct Colours {
    pub(super) has_colours: bool,
}

impl Colours {
    fn within(self, colour: &str, text: &str) -> String {
        if self.has_colours {
            format!("{colour}{text}{PLAIN}")
        } else {
            text.to_string()
        }
    }

    /// The level of a fact with its colon, as rustc colours it.
    pub(super) fn level(self, level: Level) -> String {
        let colour = match level {
            Level::Error => RED,
            Level::Warning => YELLOW,
            Level::Note => GREEN,
        };
        self.within(&format!("{BOLD}{colour}"), &format!("{}:", level.word()))
    }

    /// What is below a line of the sources: at the first place of a fact in the colour of its
    /// level, and else as rustc colours what it adds.
    pub(super) fn label(self, level: Level, nth: usize, label: &str) -> String {
        let colour = match (level, nth) {
            (Level::Error, 0) => RED,
            (Level::Warning, 0) => YELLOW,
            _ => CYAN,
        };
        self.within(&format!("{BOLD}{colour}"), label)
    }

    pub(super) fn head(self, head: &str) -> String {
        self.within(BOLD, head)
    }

    pub(super) fn lost(self, label: &str) -> String {
        self.within(RED, label)
    }

    pub(super) fn waiting(self, label: &str) -> String {
        self.within(YELLOW, label)
    }

    pub(super) fn unread(self, bars: &str) -> String {
        self.within(BLUE, bars)
    }

    pub(super) fn look(self, label: &str) -> String {
        self.within(CYAN, label)
    }
}

#[cfg(test)]
mod tests {
    use super::*;

    #[test]
    fn colours_are_around_levels_headlines_and_labels() {
        let colours = Colours { has_colours: true };
        for (level, text) in [
            (Level::Error, "\x1b[1m\x1b[31merror:\x1b[0m"),
            (Level::Warning, "\x1b[1m\x1b[33mwarning:\x1b[0m"),
            (Level::Note, "\x1b[1m\x1b[32mnote:\x1b[0m"),
        ] {
            assert_eq!(colours.level(level), text);
        }
        assert_eq!(colours.head("a"), "\x1b[1ma\x1b[0m");
        assert_eq!(colours.lost("lost:"), "\x1b[31mlost:\x1b[0m");
        let plain = Colours { has_colours: false };
        assert_eq!(plain.level(Level::Error), "error:");
        assert_eq!(plain.look("look:"), "look:");
    }
}
