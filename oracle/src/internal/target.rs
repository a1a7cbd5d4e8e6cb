//! What a job says of the target, as the published traits want it told.

use crate::entity::EntityRange;
use crate::function::{
    Block, Function, IndirectRemat, Inst, InstRange, Operand, RematCost, TerminatorKind, Value,
    ValueGroup,
};
use crate::reginfo::{
    PhysReg, PhysRegSet, RegBank, RegClass, RegClassSet, RegGroup, RegGroupSet, RegInfo, RegUnit,
    SpillSlotSize,
};

/// Sets are numbered from 0 to 511; `Allocator::run` makes room for as many
/// sets as the function has values.
const SETS: usize = 512;

/// A class: the registers to try in order, and all that it may hold.
pub struct ClassData {
    pub order: Vec<PhysReg>,
    pub members: PhysRegSet,
}

/// Registers and classes of a job.
pub struct JobRegs {
    /// The units of each register as a map of 64 bits.
    pub units: Vec<u64>,
    pub classes: Vec<ClassData>,
}

/// The units of a map, ascending.
fn units_of(map: u64) -> impl Iterator<Item = RegUnit> {
    (0..64)
        .filter(move |unit| map >> unit & 1 != 0)
        .map(RegUnit::new)
}

impl RegInfo for JobRegs {
    fn num_classes(&self) -> usize {
        self.classes.len()
    }

    fn class_members(&self, class: RegClass) -> PhysRegSet {
        self.classes[class.index()].members
    }

    fn allocation_order(&self, class: RegClass) -> &[PhysReg] {
        &self.classes[class.index()].order
    }

    fn num_regs(&self) -> usize {
        self.units.len()
    }

    fn reg_units(&self, reg: PhysReg) -> impl Iterator<Item = RegUnit> {
        units_of(self.units[reg.index()])
    }

    fn class_group_size(&self, _class: RegClass) -> usize {
        1
    }

    fn num_reg_groups(&self) -> usize {
        0
    }

    // The stage asks nothing below: banks, spilling and groups are left out.

    fn num_banks(&self) -> usize {
        unreachable!()
    }

    fn top_level_class(&self, _: RegBank) -> RegClass {
        unreachable!()
    }

    fn stack_to_stack_class(&self, _: RegBank) -> RegClass {
        unreachable!()
    }

    fn bank_for_class(&self, _: RegClass) -> RegBank {
        unreachable!()
    }

    fn bank_for_reg(&self, _: PhysReg) -> Option<RegBank> {
        unreachable!()
    }

    fn spillslot_size(&self, _: RegBank) -> SpillSlotSize {
        unreachable!()
    }

    fn class_group_members(&self, _: RegClass) -> RegGroupSet {
        unreachable!()
    }

    fn class_includes_spillslots(&self, _: RegClass) -> bool {
        unreachable!()
    }

    fn class_spill_cost(&self, _: RegClass) -> f32 {
        unreachable!()
    }

    fn group_allocation_order(&self, _: RegClass) -> &[RegGroup] {
        unreachable!()
    }

    fn sub_classes(&self, _: RegClass) -> RegClassSet {
        unreachable!()
    }

    fn is_memory(&self, _: PhysReg) -> bool {
        unreachable!()
    }

    fn reg_group_members(&self, _: RegGroup) -> &[PhysReg] {
        unreachable!()
    }

    fn group_for_reg(&self, _: PhysReg, _: usize, _: RegClass) -> Option<RegGroup> {
        unreachable!()
    }
}

/// The function that a job stands for. The stage asks only how many values, and
/// so how many sets, there may be.
pub struct JobFunction;

impl Function for JobFunction {
    fn num_values(&self) -> usize {
        SETS
    }

    fn num_insts(&self) -> usize {
        unreachable!()
    }

    fn num_blocks(&self) -> usize {
        unreachable!()
    }

    fn entry_points(&self) -> &[Block] {
        unreachable!()
    }

    fn block_insts(&self, _: Block) -> InstRange {
        unreachable!()
    }

    fn inst_block(&self, _: Inst) -> Block {
        unreachable!()
    }

    fn block_succs(&self, _: Block) -> &[Block] {
        unreachable!()
    }

    fn block_preds(&self, _: Block) -> &[Block] {
        unreachable!()
    }

    fn block_immediate_dominator(&self, _: Block) -> Option<Block> {
        unreachable!()
    }

    fn block_params(&self, _: Block) -> &[Value] {
        unreachable!()
    }

    fn terminator_kind(&self, _: Inst) -> Option<TerminatorKind> {
        unreachable!()
    }

    fn jump_blockparams(&self, _: Block) -> &[Value] {
        unreachable!()
    }

    fn block_frequency(&self, _: Block) -> f32 {
        unreachable!()
    }

    fn block_is_critical_edge(&self, _: Block) -> bool {
        unreachable!()
    }

    fn inst_operands(&self, _: Inst) -> &[Operand] {
        unreachable!()
    }

    fn inst_clobbers(&self, _: Inst) -> impl Iterator<Item = RegUnit> {
        std::iter::empty()
    }

    fn value_bank(&self, _: Value) -> RegBank {
        unreachable!()
    }

    fn num_value_groups(&self) -> usize {
        unreachable!()
    }

    fn value_group_members(&self, _: ValueGroup) -> &[Value] {
        unreachable!()
    }

    fn can_rematerialize(&self, _: Value) -> Option<(RematCost, RegClass)> {
        unreachable!()
    }

    fn can_indirectly_rematerialize(&self, _: Value) -> Option<IndirectRemat<'_>> {
        unreachable!()
    }

    fn can_eliminate_dead_inst(&self, _: Inst) -> bool {
        unreachable!()
    }
}
