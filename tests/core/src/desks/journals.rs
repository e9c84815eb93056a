//! Journals of channels, out of calls with their actors and stamps.

use crate::fixtures::record;
use proved::Global;
use proved::rw_law::Entry;
use proved::rw_world::{Chan, ChanCall, OpenFault, Spec, open_channel, refusal_of};

/// A call, by its actor and at its stamp.
pub type StampedCall<V> = (u32, u64, ChanCall<V>);

/// The specs of channels, and their journals.
pub type Parts<V> = (
    proved::Vec<Spec<V>>,
    proved::Vec<proved::Vec<Entry<Chan<V>>>>,
);

/// The journal of a channel that is opened from this spec, up to the first step that would wait or stray.
fn journal_of<V: Copy>(spec: &Spec<V>, steps: &[StampedCall<V>]) -> proved::Vec<Entry<Chan<V>>> {
    let mut channel = open_channel(Global, spec).unwrap();
    record(&mut channel, steps).into_iter().collect()
}

/// A copy of the specs, and the journals that these calls make of their channels.
///
/// # Errors
/// What a desk of these specs is refused with.
pub fn parts_of<V: Copy>(
    specs: &[Spec<V>],
    steps: &[&[StampedCall<V>]],
) -> Result<Parts<V>, OpenFault> {
    if let Some(fault) = refusal_of(specs) {
        return Err(fault);
    }
    let journals = specs
        .iter()
        .zip(steps)
        .map(|(spec, steps)| journal_of(spec, steps));
    Ok((specs.iter().copied().collect(), journals.collect()))
}
