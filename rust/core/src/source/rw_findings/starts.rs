//! Where losses began, and what receivers were given last.
// From crates/rw_findings/src/starts.rt, with its contracts as comments. //+

mod finding;
mod receipts;
mod start;

pub use finding::starts_of;
pub use receipts::last_receipts_of;
pub use start::LossStart;
