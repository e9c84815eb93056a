//! The backend of a shop, as its users write it: what tests in `tests/` are of. Each of those tests
//! fails, and `causes.csv` says why.

pub mod actor;
pub mod bus;
pub mod cache;
pub mod chat;
pub mod config;
pub mod importer;
pub mod metrics;
pub mod pool;
pub mod registry;
pub mod retry;
pub mod service;
pub mod sse;
