//! Numbers of a channel's handles or values, among which those of each call are looked up.

pub(crate) enum Numbers {
    /// A bit for each number up to the greatest.
    Bits(Vec<u64>),
    Sorted(Vec<u64>),
}

/// How many times as much memory as a list a bit for each number may take.
const MOST_MORE: usize = 4;

impl Numbers {
    /// Takes a sorted list.
    pub(crate) fn of(list: Vec<u64>) -> Numbers {
        let most = list.last().map_or(0, |last| last / 64);
        if most >= (MOST_MORE * list.len()) as u64 {
            return Numbers::Sorted(list);
        }
        let mut bits = vec![0; most as usize + 1];
        for number in list {
            bits[(number / 64) as usize] |= 1 << (number % 64);
        }
        Numbers::Bits(bits)
    }

    pub(crate) fn is_empty(&self) -> bool {
        matches!(self, Numbers::Sorted(list) if list.is_empty())
    }

    pub(crate) fn has(&self, number: u64) -> bool {
        match self {
            Numbers::Bits(bits) => {
                let word = usize::try_from(number / 64)
                    .ok()
                    .and_then(|at| bits.get(at));
                word.is_some_and(|word| word >> (number % 64) & 1 == 1)
            }
            Numbers::Sorted(list) => list.binary_search(&number).is_ok(),
        }
    }
}
