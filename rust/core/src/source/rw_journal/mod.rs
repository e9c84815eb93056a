//! Books: a machine with the journal of its calls.
//!
//! The one contract: the journal is legal, and the machine is in the state that it leads to. Each entry is the step of its call
//! from the state that the entries before it lead to, the stamps strictly rise, and no book has more than 1,048,576 entries.
//! Start reading at `specs/Book.antt`, which defines what a book is and what it means that a call was recorded, and then at
//! `book.rt`. A ledger (`ledger.rt`) promises the same and stores the calls alone: `specs/Ledger.antt` defines the entries that
//! they make. Both are a log (`log.rt`), which takes calls for either. Recent calls (`recent_calls.rt`) are the last ones of any
//! number of calls, in memory that doesn't grow with it: `specs/RecentCalls.antt` says of which book they are the end.
//! What stands on it: `rw_desk`, `rw_navigator`, `rw_text`.
//~ #![tactic(auto)]
// From crates/rw_journal/src/lib.rt, with its contracts as comments. //+

mod answers;
mod book;
mod copied;
mod draft;
mod entry_form;
mod expected;
mod growth;
mod keeps;
pub mod laws;
mod ledger;
mod log;
mod made;
mod merged_calls;
mod merges;
mod merging;
mod noted;
mod out_of_order;
mod pending;
mod recent_calls;
mod records;
mod row_draft;
mod run;
mod same;
mod stamps;
mod stored_call;

pub use answers::{Receipt, TakeFault};
pub use book::{Book, MOST_ENTRIES};
pub use copied::Copied;
pub use draft::{PushFault, RunDraft, goes_on};
pub use keeps::Keeps;
pub use ledger::Ledger;
pub use made::entries_of;
pub use merged_calls::merge_calls;
pub use merges::{MergeFault, merge, merge_all, merges_once, refusal_to_merge};
pub use noted::{CallForm, NotedCall, Notes};
pub use recent_calls::{MOST_CHUNK, MOST_RECENT_STAMP, RecentCalls};
pub use records::Records;
pub use run::Run;
pub use same::Same;
pub use stored_call::{ChanLedger, StoredCall};
