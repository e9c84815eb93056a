//! What can be wrong with a script.
// From crates/rw_script/src/faults.rt, with its contracts as comments. //+

//~ ghost use Rattle.std.specs.Prelude.{◌≡◌};
//~ ghost use Rattle.rw_script.specs.Faults.{fault_word, kind_of_words};

use crate::source::rw_words::WordFault;
use crate::shim::error::Error;
use crate::shim::fmt;

/// What is wrong with a line of a script. If several of these apply to a line, the first in this order is reported.
#[derive(Clone, Copy, Debug, PartialEq, Eq)]
pub enum ScriptFaultKind {
    /// The line has more than 256 bytes.
    TooLong,
    /// The line isn't a channel or actors line where one may stand, and doesn't begin with two numerals and a word.
    Syntax,
    /// The capacity is 0 or above 65,536.
    BadCapacity,
    /// It is the 65th channel line.
    TooManyChannels,
    /// The number of actors is 0 or above 64.
    BadActors,
    /// There is no such actor.
    UnknownActor,
    /// There is no such channel.
    UnknownChannel,
    /// No call of the channel's kind has this word.
    WrongWord,
    /// What follows the word isn't what the word requires.
    BadArguments,
    /// The name wasn't bound by an earlier line of this actor on this channel.
    UnknownName,
    /// The name was bound by an earlier line.
    NameTaken,
    /// It is step line 1,048,577.
    TooManySteps,
    /// The script ends here, and there was no channel line.
    NoChannels,
    /// An allocation failed.
    NoMemory,
}

impl ScriptFaultKind {
    /// Returns the word for it in a fault line.
    pub fn word(self) -> &'static str
//~         ensures { result.now ≡ fault_word self }
    {
        match self {
            ScriptFaultKind::TooLong => "too-long",
            ScriptFaultKind::Syntax => "syntax",
            ScriptFaultKind::BadCapacity => "bad-capacity",
            ScriptFaultKind::TooManyChannels => "too-many-channels",
            ScriptFaultKind::BadActors => "bad-actors",
            ScriptFaultKind::UnknownActor => "unknown-actor",
            ScriptFaultKind::UnknownChannel => "unknown-channel",
            ScriptFaultKind::WrongWord => "wrong-word",
            ScriptFaultKind::BadArguments => "bad-arguments",
            ScriptFaultKind::UnknownName => "unknown-name",
            ScriptFaultKind::NameTaken => "name-taken",
            ScriptFaultKind::TooManySteps => "too-many-steps",
            ScriptFaultKind::NoChannels => "no-channels",
            ScriptFaultKind::NoMemory => "no-memory",
        }
    }
}

impl fmt::Display for ScriptFaultKind {
//~     ghost use Rattle.std.specs.Prelude.{Some};
//~     ghost use Rattle.rw_script.specs.Faults.{fault_word};

//~     ghost output = { λ kind. Some (fault_word kind) };

    fn fmt/*~<W: fmt::Write>~*/(&self, f: &mut fmt::Formatter/*~<W>~*/) -> fmt::Result {
        write!(f, "{}", self.word())
    }
}

impl Error for ScriptFaultKind {}

impl From<WordFault> for ScriptFaultKind {
//~     ghost use Rattle.std.specs.Prelude.{◌≡◌};
//~     ghost use Rattle.rw_script.specs.Faults.{kind_of_words};

//~     ghost from_gives = { λ fault kind. kind ≡ kind_of_words fault };

    fn from(fault: WordFault) -> ScriptFaultKind {
        match fault {
            WordFault::WrongWord => ScriptFaultKind::WrongWord,
            WordFault::BadArguments | WordFault::HandleTooLarge => ScriptFaultKind::BadArguments,
        }
    }
}

/// The first fault of a script, and the number of its line, counted from 1.
#[derive(Clone, Copy, Debug, PartialEq, Eq)]
pub struct ScriptFault {
    pub line: u64,
    pub kind: ScriptFaultKind,
}

impl fmt::Display for ScriptFault {
//~     ghost use Rattle.std.specs.Prelude.{Some};
//~     ghost use Rattle.rw_script.specs.Faults.{fault_text};

//~     ghost output = { λ fault. Some (fault_text fault) };

    fn fmt/*~<W: fmt::Write>~*/(&self, f: &mut fmt::Formatter/*~<W>~*/) -> fmt::Result {
        write!(f, "script fault {} {}", self.line, self.kind)
    }
}

impl Error for ScriptFault {}
