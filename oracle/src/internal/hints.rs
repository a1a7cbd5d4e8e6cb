//! Stand-in for the published hints, which are collected from fixed operands.
//! Here a job gives them for each virtual register, as `group_for_reg` let
//! them through.

use std::fmt;

use super::live_range::LiveRangeSegment;
use super::virt_regs::VirtReg;
use crate::function::{Inst, Value};
use crate::reginfo::PhysReg;

#[derive(Debug, Clone, Copy)]
pub struct Hint {
    pub reg: PhysReg,
    pub weight: f32,
}

impl fmt::Display for Hint {
    fn fmt(&self, f: &mut fmt::Formatter<'_>) -> fmt::Result {
        write!(f, "{} ({})", self.reg, self.weight)
    }
}

/// Hints of each virtual register in arrival order.
#[derive(Default)]
pub struct Hints {
    by_vreg: Vec<Vec<Hint>>,
}

impl Hints {
    /// Adds the hints of the next virtual register.
    pub fn push(&mut self, hints: Vec<Hint>) {
        self.by_vreg.push(hints);
    }

    pub fn hints_for_vreg(&self, vreg: VirtReg) -> impl Iterator<Item = &Hint> + '_ {
        self.by_vreg[vreg.index()].iter()
    }

    pub fn hints_for_split(&self, _: Value, _: LiveRangeSegment, _: Inst) -> (bool, bool) {
        unreachable!("splitting is left out")
    }
}
