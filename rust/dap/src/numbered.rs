//! What a client was shown at a stop, by numbers that it asks for more with.

/// The largest number of the protocol is below 2,147,483,648. Above half of it they begin again.
const LARGEST: usize = 1 << 30;

/// The items of a stop, with numbers from 1 on. A number isn't given again at the stops after it,
/// so that a late request gets nothing rather than something else.
pub(crate) struct Numbered<T> {
    before: usize,
    items: Vec<T>,
}

impl<T: Copy> Numbered<T> {
    /// Returns an empty list, whose numbers begin above this one.
    pub(crate) fn above(before: usize) -> Numbered<T> {
        Numbered {
            before,
            items: vec![],
        }
    }

    /// The last number that was given, or 0.
    pub(crate) fn last(&self) -> usize {
        self.before + self.items.len()
    }

    /// Adds an item, and returns its number.
    pub(crate) fn add(&mut self, item: T) -> usize {
        self.items.push(item);
        self.last()
    }

    /// Returns the item of this number, if it is of this stop.
    pub(crate) fn get(&self, number: u64) -> Option<T> {
        let number = usize::try_from(number).ok()?;
        let index = number.checked_sub(self.before)?.checked_sub(1)?;
        self.items.get(index).copied()
    }

    /// Forgets all items. What they are of goes on.
    pub(crate) fn clear(&mut self) {
        self.before = Some(self.last())
            .filter(|last| *last <= LARGEST)
            .unwrap_or(0);
        self.items.clear();
    }
}

#[cfg(test)]
mod tests {
    use super::*;

    #[test]
    fn a_number_is_of_one_stop() {
        let mut numbered = Numbered::above(0);
        assert_eq!([numbered.add('a'), numbered.add('b')], [1, 2]);
        assert_eq!(
            (numbered.get(0), numbered.get(2), numbered.get(3)),
            (None, Some('b'), None)
        );
        numbered.clear();
        assert_eq!((numbered.get(1), numbered.get(3)), (None, None));
        assert_eq!(numbered.add('c'), 3);
        assert_eq!((numbered.get(2), numbered.get(3)), (None, Some('c')));
        let mut numbered = Numbered::above(LARGEST);
        assert_eq!(numbered.add('d'), LARGEST + 1);
        numbered.clear();
        assert_eq!((numbered.add('e'), numbered.get(1)), (1, Some('e')));
        assert_eq!(numbered.get(u64::MAX), None);
    }
}
