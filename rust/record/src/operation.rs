//! The calls by the words that a journal has for them, and what each is: the columns of the table
//! in `calls.rs`.

use super::calls::with_calls;
use yovanelum_core::source::rw_handles as handles;
use yovanelum_core::source::rw_recording::{BCall as B, ChanCall, WCall as W};

/// The kind of a handle.
#[derive(Clone, Copy, Debug, PartialEq, Eq)]
pub enum Kind {
    Sender,
    WeakSender,
    Receiver,
}

impl Kind {
    /// The same kind, as the core has it.
    pub fn in_core(self) -> handles::Kind {
        match self {
            Kind::Sender => handles::Kind::Sender,
            Kind::WeakSender => handles::Kind::Weak,
            Kind::Receiver => handles::Kind::Receiver,
        }
    }
}

/// A set of calls.
#[derive(Clone, Copy)]
pub struct CallSet(u8);

impl CallSet {
    /// The calls that pass a value.
    pub const SENDS: CallSet = CallSet(1);

    /// Those that only ask, so that they leave no entry after `quiet_questions()`.
    pub const ASKS: CallSet = CallSet(1 << 1);

    /// Those that may wait: their future is then pending until its turn. Any other call blocks its
    /// thread until then.
    pub const MAY_WAIT: CallSet = CallSet(1 << 2);

    /// Those by which a receiver is told something.
    pub const RECEIVES: CallSet = CallSet(1 << 3);

    /// Those by which a receiver of a broadcast takes a value.
    pub const TAKES: CallSet = CallSet(1 << 4);

    /// Those by which a receiver of a watch marks a version as seen, if they return a value or are
    /// done.
    pub const MARKS: CallSet = CallSet(1 << 5);

    /// Those by which a receiver of a watch asks for a new version.
    pub const AWAITS: CallSet = CallSet(1 << 6);
}

/// A row of the table.
struct CallRow {
    text: &'static str,
    method: &'static str,
    done: &'static str,
    makes: Option<Kind>,
    sets: CallSet,
}

/// The kind of handle that a row says.
macro_rules! made {
    () => {
        None
    };
    ($kind:ident) => {
        Some(Kind::$kind)
    };
}

macro_rules! words {
    ($($word:ident $text:literal $method:literal $done:literal $(makes $kind:ident)? [$($set:ident)*]
        $($name:ident($($arg:ident: $type:ty),*) = $side:ident $variant:ident $args:tt)*
        $(=> $like:ident)?;)*) => {
        /// What a call is, as its journal names it. Two calls that wait are told from the calls
        /// that a journal has the same word for.
        #[derive(Clone, Copy, Debug, PartialEq, Eq)]
        pub enum Operation {
            $($word,)*
        }

        /// The rows, in the order of the variants.
        const ROWS: &[CallRow] = &[
            $(CallRow {
                text: $text,
                method: $method,
                done: $done,
                makes: made!($($kind)?),
                sets: CallSet(0 $(| CallSet::$set.0)*),
            },)*
        ];

        const WORDS: &[Operation] = &[$(Operation::$word,)*];

        impl Operation {
            /// Returns the word of a call that isn't marked as one that waits.
            pub fn of(call: &ChanCall<u64>) -> Operation {
                match call {
                    $($(ChanCall::$side($side::$variant { .. }) => Operation::$word,)*)*
                }
            }

            /// Returns the word of the call that waits and has the same text.
            pub fn marked(self) -> Operation {
                match self {
                    $($(Operation::$like => Operation::$word,)?)*
                    word => word,
                }
            }
        }
    };
}

with_calls!(words);

impl Operation {
    /// Returns the word with this text, if there is one: not that of a call that waits and has the
    /// text of another one.
    pub fn of_text(text: &str) -> Option<Operation> {
        let mut words = WORDS.iter().copied();
        words.find(|word| word.text() == text)
    }

    const fn row(self) -> &'static CallRow {
        &ROWS[self as usize]
    }

    /// Whether the call is in a set.
    pub fn is(self, set: CallSet) -> bool {
        self.row().sets.0 & set.0 != 0
    }

    /// The kind of handle that this call creates, if it isn't refused.
    pub const fn makes(self) -> Option<Kind> {
        self.row().makes
    }

    /// Returns the text that a journal has for the call.
    pub fn text(self) -> &'static str {
        self.row().text
    }

    /// Returns tokio's name of the method. A drop isn't one.
    pub fn method(self) -> &'static str {
        self.row().method
    }

    /// Returns what a caller did by the call, in a word.
    pub fn done(self) -> &'static str {
        self.row().done
    }
}
