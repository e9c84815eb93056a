//! Peaks by receiver and stretch.
// From crates/rw_findings/src/peaks/rows.rt, with its contracts as comments. //+
use crate::shim::Vec; //+

//~ ghost use Rattle.std.specs.Prelude.{◌≡◌, ℕ, [], OnOk, length, slice_index_or};
//~ ghost use Rattle.rw_findings.specs.Peaks.{Raised, alone, raised_to};

use crate::source::rw_law::NoMemory;
use crate::shim::alloc::Global;
//~ use std::marker::Model;

/// The peaks of one receiver by stretch. A peak that isn't there is 0.
//~ #[derive(Drop)]
struct Row {
    peaks: Vec<u64>,
}

//~ impl Model for Row {
//~     ghost use Rattle.std.specs.Prelude.{ℕ, List};
//~
//~     ghost Value = { List ℕ };
//~
//~     ghost view = { λ a. a.peaks.items };
//~ }

impl Row {
    /// Raises the peak in a stretch to this level, if it is lower.
//~     #[tactic(auto, using(crate::proofs::PeakSums::push_default))]
    fn raise(&mut self, stretch: usize, level: u64) -> Result<(), NoMemory>
//~         ensures { OnOk result ((other : ℕ) → slice_index_or self.new other 0 ≡ raised_to stretch other (slice_index_or self.old other 0) level) }
    {
        'each_missing: while self.peaks.len() <= stretch {
            self.peaks.push(0)?;
        }
        self.peaks[stretch] = self.peaks[stretch].max(level);
        Ok(())
    }
}

/// The peaks of a channel's receivers, by the receiver's number and by stretch. A peak that isn't there is 0.
//~ #[derive(Drop)]
pub struct Peaks {
    rows: Vec<Row>,
}

//~ impl Model for Peaks {
//~     ghost use Rattle.std.specs.Prelude.{ℕ, List};
//~
//~     ghost Value = { List (List ℕ) };
//~
//~     ghost view = { λ a. a.rows.items };
//~ }

impl Peaks {
    /// Returns peaks that are all 0.
    pub(crate) fn new(alloc: Global) -> Peaks
//~         ensures { result ≡ [] }
    {
        Peaks {
            rows: Vec::new(alloc),
        }
    }

    /// Returns how many receivers there are rows for. Those of later numbers have no peak but 0.
    pub fn len(&self) -> usize
//~         ensures { result ≡ length self.now }
    {
        self.rows.len()
    }

    /// Returns the peaks of a receiver by stretch. Those of later stretches are 0.
    pub fn row(&self, receiver: usize) -> &[u64]
//~         ensures { result.now ≡ slice_index_or self.now receiver [] }
    {
        match self.rows.get(receiver) {
            Some(row) => row.peaks.as_slice(),
            None => &[],
        }
    }

    /// Raises a receiver's peak in a stretch to this level, if it is lower.
//~     #[tactic(auto, using(crate::proofs::PeakSums::push_default))]
    pub(crate) fn raise(
        &mut self,
        alloc: Global,
        receiver: usize,
        stretch: usize,
        level: u64,
    ) -> Result<(), NoMemory>
//~         ensures { OnOk result (Raised self.old self.new stretch (alone receiver level)) }
    {
        if level == 0 {
            return Ok(());
        }
        'each_missing: while self.rows.len() <= receiver {
            self.rows.push(Row {
                peaks: Vec::new(alloc),
            })?;
        }
        self.rows[receiver].raise(stretch, level)?;
        Ok(())
    }
}
