//! Stand-in for splitting and spilling: both only record that the number is
//! left over, which is the ending that document 01 adds.

use super::{AbstractVirtRegGroup, Assignment, Context};
use crate::function::Function;
use crate::reginfo::RegInfo;

pub struct Splitter;

impl Splitter {
    pub fn new() -> Self {
        Self
    }
}

impl<F: Function, R: RegInfo> Context<'_, F, R> {
    pub(super) fn spill<V: AbstractVirtRegGroup>(&mut self, vreg: V) {
        for vreg in vreg.vregs(self.virt_regs) {
            self.allocator.assignments[vreg] = Assignment::Dead;
        }
    }

    pub(super) fn split_or_spill<V: AbstractVirtRegGroup>(&mut self, vreg: V) {
        self.spill(vreg);
    }
}
