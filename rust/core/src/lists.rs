//! Lists whose memory may be refused, without an end of the process.

use crate::source::rw_law::NoMemory;

/// Returns a list with room for `len` items.
pub fn reserved<T>(len: usize) -> Result<Vec<T>, NoMemory> {
    let mut list = Vec::new();
    list.try_reserve_exact(len).map_err(|_| NoMemory)?;
    Ok(list)
}

/// Collects things, of which there are at most `most`.
pub fn collected<T>(most: usize, all: impl Iterator<Item = T>) -> Result<Vec<T>, NoMemory> {
    let mut list = reserved(most)?;
    list.extend(all);
    Ok(list)
}
