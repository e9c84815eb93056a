//! The fourth layer: in which order calls are made, by a journal that is replayed or by a search.

mod entrance;
pub(crate) mod explore;
pub(crate) mod replay;
