//! Moves between the places of a journal.
// From crates/rw_navigator/src/moves.rt, with its contracts as comments. //+

//~ ghost use Rattle.std.specs.Prelude.{◌≡◌, ◌≤◌};
//~ ghost use Rattle.rw_navigator.specs.Moves.{place_after};

//~ use thiserror::Error;

/// Where to go from a place.
#[derive(Clone, Copy, Debug, PartialEq, Eq)]
pub enum Move {
    /// This many places towards the start.
    Back(u64),
    /// This many places towards the end.
    Forward(u64),
    /// To the place of this number.
    Goto(u64),
    /// To place 0, before the first entry.
    Start,
    /// To the last place, after all entries.
    End,
}

/// The move leads to no place of the journal. It has changed nothing.
#[derive(Clone, Copy, Debug, PartialEq, Eq/*~, Error~*/)]
//~ #[error("out of range")]
pub struct OutOfRange;

impl Move {
    /// Returns where the move leads from a place, or `None` if to none of the places 0 to `len`.
    pub(crate) fn destination(self, place: u64, len: u64) -> Option<u64>
//~         requires { place ≤ len }
//~         ensures { result ≡ place_after len place self }
    {
        match self {
            Move::Back(n) => place.checked_sub(n),
            Move::Forward(n) => place.checked_add(n).filter(|p| *p <= len),
            Move::Goto(n) => Some(n).filter(|p| *p <= len),
            Move::Start => Some(0),
            Move::End => Some(len),
        }
    }
}
impl core::fmt::Display for OutOfRange { //+
    fn fmt(&self, f: &mut core::fmt::Formatter<'_>) -> core::fmt::Result { //+
        match self { //+
            OutOfRange => write!(f, "out of range"), //+
        } //+
    } //+
} //+
impl core::error::Error for OutOfRange {} //+
