//! The journals that other tests are given.

use crate::cell::{Call, Cell};
use proved::rw_law::{MOST_ACTORS, MOST_STAMP};
use support::fixtures::record;

/// How many of these calls, each by its actor and at its stamp, are recorded.
fn recorded(steps: &[(u32, u64, Call)]) -> usize {
    record(&mut Cell::new(100), steps).len()
}

#[test]
fn a_journal_ends_at_what_no_journal_has() {
    let set = Call::Set(1);
    let most = (MOST_ACTORS - 1, MOST_STAMP, set);
    assert_eq!(recorded(&[(0, 1, set), most]), 2);
    assert_eq!(recorded(&[(0, 1, set), (MOST_ACTORS, 2, set), most]), 1);
    assert_eq!(recorded(&[(0, 1, set), (0, MOST_STAMP + 1, set), most]), 1);
    assert_eq!(recorded(&[(0, 1, set), (0, 2, Call::Wait), most]), 1);
    assert_eq!(recorded(&[(0, 1, set), (0, 2, Call::Stray), most]), 1);
}
