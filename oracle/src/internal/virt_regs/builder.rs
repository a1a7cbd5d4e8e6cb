//! Stand-in for the published builder, which makes virtual registers from live
//! ranges. Here they come from the job, one by one.

use super::{VirtReg, VirtRegData, VirtRegs};
use crate::entity::CompactList;
use crate::function::Function;
use crate::internal::coalescing::Coalescing;
use crate::internal::hints::Hints;
use crate::internal::live_range::ValueSegment;
use crate::internal::split_placement::SplitPlacement;
use crate::internal::uses::Uses;
use crate::internal::value_live_ranges::ValueSet;
use crate::reginfo::{RegBank, RegClass, RegInfo};
use crate::{Options, Stats};

#[derive(Default)]
pub struct VirtRegBuilder;

/// What a job says of a virtual register, besides hints and segments.
pub struct Traits {
    pub class: RegClass,
    pub value_set: ValueSet,
    pub spill_weight: f32,
    pub size: u32,
    pub has_fixed_hint: bool,
}

impl VirtRegBuilder {
    pub fn clear(&mut self) {}

    /// Adds the next virtual register, in the way of the published `emit_vreg`.
    pub fn add(virt_regs: &mut VirtRegs, traits: Traits, segments: Vec<ValueSegment>) -> VirtReg {
        virt_regs.virt_regs.push(VirtRegData {
            segments: CompactList::from_iter(segments, &mut virt_regs.segment_pool),
            class: traits.class,
            group_index: 0,
            group: None.into(),
            has_fixed_hint: traits.has_fixed_hint,
            value_set: traits.value_set,
            spill_weight: traits.spill_weight,
            size: traits.size,
        })
    }

    pub fn build(
        &mut self,
        _bank: RegBank,
        _func: &impl Function,
        _reginfo: &impl RegInfo,
        _virt_regs: &mut VirtRegs,
        _uses: &mut Uses,
        _hints: &Hints,
        _coalescing: &mut Coalescing,
        _stats: &mut Stats,
        _options: &Options,
        _split_placement: Option<&SplitPlacement>,
        _new_vregs: Option<&mut Vec<VirtReg>>,
        _value_set: ValueSet,
        _segments: &mut [ValueSegment],
    ) {
        unreachable!("virtual registers come from the job")
    }
}
