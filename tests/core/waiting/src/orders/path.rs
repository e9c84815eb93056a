//! The choices of an order, and the states that are known.

use std::collections::HashSet;

/// A choice: which one was chosen, of how many.
#[derive(Debug)]
struct Choice {
    chosen: usize,
    of: usize,
}

/// The choices of one order, and what is known of all orders before it.
#[derive(Debug, Default)]
pub(super) struct Path {
    choices: Vec<Choice>,
    next: usize,
    known: HashSet<u64>,
}

impl Path {
    /// Chooses as the order before did, up to where it goes another way, and the first from there on.
    pub(super) fn choose(&mut self, of: usize) -> usize {
        if of == 1 {
            return 0;
        }
        if self.next == self.choices.len() {
            self.choices.push(Choice { chosen: 0, of });
        }
        let choice = &self.choices[self.next];
        assert_eq!(
            choice.of, of,
            "a play differs from one with the same choices"
        );
        self.next += 1;
        choice.chosen
    }

    /// Whether all from this state on was searched, or is going to be. The state is known from then on.
    pub(super) fn knows(&mut self, state: u64) -> bool {
        self.next == self.choices.len() && !self.known.insert(state)
    }

    /// Goes to the next order. Returns false after the last one.
    pub(super) fn advance(&mut self) -> bool {
        self.next = 0;
        while let Some(last) = self.choices.last_mut() {
            last.chosen += 1;
            if last.chosen < last.of {
                return true;
            }
            self.choices.pop();
        }
        false
    }

    /// How many states are known.
    pub(super) fn states(&self) -> usize {
        self.known.len()
    }
}
