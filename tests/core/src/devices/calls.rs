//! The call that fails.

/// Counts a call, and returns whether it is the one that fails. `calls` is how many succeed before it.
pub(crate) fn fails(calls: &mut Option<u64>) -> bool {
    match *calls {
        None => false,
        Some(0) => {
            *calls = None;
            true
        }
        Some(left) => {
            *calls = Some(left - 1);
            false
        }
    }
}
