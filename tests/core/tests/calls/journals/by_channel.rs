//! The run that the journals of channels are merged into.

use proved::Global;
use proved::rw_desk::{CloseFault, Pass, settle};
use proved::rw_journal::{MergeFault, Run, merge};
use proved::rw_law::Payload;
use proved::rw_world::{OpenFault, Spec};
use support::desks::{StampedCall, parts_of};

/// What the journals of these calls merge to.
pub fn merged<V: Copy>(
    specs: &[Spec<V>],
    steps: &[&[StampedCall<V>]],
) -> Result<Result<Run<V>, MergeFault>, OpenFault> {
    let (specs, journals) = parts_of(specs, steps)?;
    Ok(merge(Global, specs, journals))
}

/// What the journals of these calls and one pass, or none, settle to.
pub fn settled<V: Payload>(
    specs: &[Spec<V>],
    steps: &[&[StampedCall<V>]],
    passes: &[Pass<V>],
) -> Result<Result<Run<V>, CloseFault>, OpenFault> {
    let (specs, journals) = parts_of(specs, steps)?;
    Ok(settle(Global, specs, journals, passes))
}
