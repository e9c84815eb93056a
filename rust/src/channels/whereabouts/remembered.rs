//! Walks of stacks that are remembered with their places, for all threads. Nothing is locked to
//! find one, and none is removed.

use super::frames::{Return, StackWalk, has_returns};
use super::places::PlaceNumber;
use std::sync::OnceLock;

/// How many lists there are. A stack is in that of its size.
const LISTS: usize = 512;

/// How many stacks a list has at most. Those of one size that are more are walked each time.
const MOST_OF_LIST: usize = 16;

struct Remembered {
    // How many bytes there are between the mark and the limit.
    size: usize,
    returns: Box<[Return]>,
    place: PlaceNumber,
    next: Link,
}

type Link = OnceLock<Box<Remembered>>;

static STACKS: [Link; LISTS] = [const { OnceLock::new() }; LISTS];

fn list_of(size: usize) -> &'static Link {
    // Frames begin at multiples of 16 bytes.
    &STACKS[size / 16 % LISTS]
}

/// Returns the place of the stack between `mark` and `limit`, if it is remembered.
pub(super) fn place(mark: usize, limit: usize) -> Option<PlaceNumber> {
    let size = limit.checked_sub(mark)?;
    let mut link = list_of(size);
    while let Some(it) = link.get() {
        if it.size == size && has_returns(mark, &it.returns) {
            return Some(it.place);
        }
        link = &it.next;
    }
    None
}

/// Remembers the place of a stack, if its walk can be compared and its list has room.
pub(super) fn remember(mark: usize, limit: usize, walk: &StackWalk, place: PlaceNumber) {
    let (Some(size), Some(found)) = (limit.checked_sub(mark), walk.to_compare()) else {
        return;
    };
    let mut returns = vec![];
    if returns.try_reserve_exact(found.len()).is_err() {
        return;
    }
    returns.extend_from_slice(found);
    let mut new = Box::new(Remembered {
        size,
        returns: returns.into(),
        place,
        next: OnceLock::new(),
    });
    let mut link = list_of(size);
    for _ in 0..MOST_OF_LIST {
        match link.set(new) {
            Ok(()) => return,
            // Another stack is here, perhaps since now.
            Err(refused) => new = refused,
        }
        let Some(it) = link.get() else {
            return;
        };
        link = &it.next;
    }
}
