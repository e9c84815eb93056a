//! The result of a call that makes a handle.
// From crates/rw_desk/src/made.rt, with its contracts as comments. //+

/// A new handle, or the reply that refuses it.
#[derive(Debug/*~, Drop~*/, PartialEq)]
pub enum Made<H, R> {
    New(H),
    Refused(R),
}
