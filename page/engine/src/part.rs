//! What the engine answers: lists of numbers, each of which the page gets as a typed array.

/// A list of numbers.
#[derive(Debug)]
pub enum Part {
    Bytes(Vec<u8>),
    Halves(Vec<u16>),
    Words(Vec<u32>),
}

/// What stands for no place and no number, since it is past each.
pub(crate) const NONE: u32 = u32::MAX;

impl Part {
    /// Where the list is in memory.
    pub(crate) fn address(&self) -> *const u8 {
        match self {
            Part::Bytes(list) => list.as_ptr(),
            Part::Halves(list) => list.as_ptr().cast(),
            Part::Words(list) => list.as_ptr().cast(),
        }
    }

    /// How many numbers it has.
    pub(crate) fn len(&self) -> usize {
        match self {
            Part::Bytes(list) => list.len(),
            Part::Halves(list) => list.len(),
            Part::Words(list) => list.len(),
        }
    }

    /// How many bytes each number has.
    pub(crate) fn width(&self) -> usize {
        match self {
            Part::Bytes(_) => 1,
            Part::Halves(_) => 2,
            Part::Words(_) => 4,
        }
    }

    /// A list of numbers that are mostly small, in two bytes each where all of them are.
    pub(crate) fn of_small(list: Vec<u32>) -> Part {
        let halves = list.iter().map(|number| u16::try_from(*number));
        match halves.collect() {
            Ok(halves) => Part::Halves(halves),
            Err(_) => Part::Words(list),
        }
    }
}

impl From<Vec<u8>> for Part {
    fn from(list: Vec<u8>) -> Part {
        Part::Bytes(list)
    }
}

impl From<Vec<u32>> for Part {
    fn from(list: Vec<u32>) -> Part {
        Part::Words(list)
    }
}

impl From<String> for Part {
    fn from(text: String) -> Part {
        Part::Bytes(text.into_bytes())
    }
}

/// Returns a number as the page has it. No place and no count of a run is above it.
pub(crate) fn word(number: u64) -> u32 {
    number.try_into().unwrap_or(NONE)
}

/// The same of a number that may be missing.
pub(crate) fn word_or_none(number: Option<u64>) -> u32 {
    number.map_or(NONE, word)
}
