//! Stand-in: live ranges come from the job; only the name of a set is needed.

use super::live_range::ValueSegment;

entity_def! {
    /// A set of values whose live ranges do not overlap.
    pub entity ValueSet(u32, "valueset");
}

pub struct ValueLiveRanges;

impl ValueLiveRanges {
    pub fn take_all_value_sets(
        &mut self,
    ) -> impl Iterator<Item = (ValueSet, Vec<ValueSegment>)> + '_ {
        std::iter::empty()
    }
}
