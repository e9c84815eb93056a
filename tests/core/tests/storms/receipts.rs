//! The receipts of actors compared with the entries of the run.

use proved::rw_desk::{Kept, compare};
use proved::rw_journal::Run;

/// A copy of an actor's receipts, which outlives its pass.
pub struct Receipts {
    actor: u32,
    kept: Vec<Kept<u64>>,
}

impl Receipts {
    pub fn of(actor: u32, kept: &[Kept<u64>]) -> Receipts {
        let kept = kept.to_vec();
        Receipts { actor, kept }
    }
}

/// Asserts that each actor's receipts are its entries: as many, in the same order, with the same calls, replies and stamps.
pub fn assert_agree(seed: u64, run: &Run<u64>, all: &[Receipts]) {
    let differs = |of: &Receipts| compare(run, of.actor, &of.kept).is_some();
    assert!(
        !all.iter().any(differs),
        "seed {seed}: receipts are not the entries"
    );
}
