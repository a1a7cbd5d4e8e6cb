//! Stand-in: spilling is left out, a number is only recorded as left over.

use super::live_range::{LiveRangeSegment, ValueSegment};
use super::value_live_ranges::ValueSet;
use crate::function::Function;
use crate::reginfo::SpillSlotSize;

#[derive(Default)]
pub struct SpillAllocator;

impl SpillAllocator {
    pub fn clear(&mut self, _func: &impl Function) {}

    pub fn set_range(&mut self, _: ValueSet, _: SpillSlotSize, _: LiveRangeSegment) {
        unreachable!("live ranges come from the job")
    }

    pub fn spilled_segments(&self) -> impl Iterator<Item = (ValueSet, ValueSegment)> {
        std::iter::empty()
    }
}
