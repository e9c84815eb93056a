//! How many values a channel had had at a place.
// From crates/rw_findings/src/values/counting.rt, with its contracts as comments. //+

//~ ghost use Rattle.std.specs.Prelude.{◌≡◌, ◌-◌, ◌≤◌, ℕ};
//~ ghost use Rattle.rw_findings.specs.Values.{AreValues, count_at};
//~ ghost use Rattle.rw_journal.specs.Run.{Run};
//~ ghost use Rattle.rw_navigator.specs.Places.{last_place};

use super::value::ChannelValue;

/// Returns how many values a channel had had at a place, where these are its values. It is a binary search.
pub fn values_by<V: Copy>(values: &[ChannelValue<V>], place: u64) -> u64
//~     ensures { (run : Run V) (channel : ℕ) → AreValues run channel values.now → place ≤ last_place run → result ≡ count_at run channel place }
{
    values.partition_point(|value| value.since <= place) as u64
}

/// Returns how many values came to a channel after a place and up to another. To a handle that was made and dropped at these places it is how
/// many came while the handle was there.
pub fn values_between<V: Copy>(values: &[ChannelValue<V>], after: u64, to: u64) -> u64
//~     ensures { (run : Run V) (channel : ℕ) → AreValues run channel values.now → after ≤ to → to ≤ last_place run →
//~         result ≡ count_at run channel to - count_at run channel after }
{
    values_by(values, to).saturating_sub(values_by(values, after))
}
