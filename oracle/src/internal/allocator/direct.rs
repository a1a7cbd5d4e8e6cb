//! Ours: direct calls on the allocator, and its records for listings.
//!
//! The calls use the published `Context::assign` and
//! `Context::evict_interfering_vregs`. Their callers test first what document
//! 01 refuses.

use super::order::CandidateReg;
use super::{Allocator, Assignment, Context};
use crate::entity::EntityRef;
use crate::internal::coalescing::Coalescing;
use crate::internal::hints::Hints;
use crate::internal::reg_matrix::RegMatrix;
use crate::internal::spill_allocator::SpillAllocator;
use crate::internal::split_placement::SplitPlacement;
use crate::internal::target::{JobFunction, JobRegs};
use crate::internal::uses::Uses;
use crate::internal::virt_regs::builder::VirtRegBuilder;
use crate::internal::virt_regs::{VirtReg, VirtRegs};
use crate::reginfo::PhysReg;
use crate::{Options, RegAllocError, Stats};

/// Everything beside the allocator that a run or a direct call works on.
pub struct Surroundings {
    pub func: JobFunction,
    pub reginfo: JobRegs,
    pub uses: Uses,
    pub hints: Hints,
    pub reg_matrix: RegMatrix,
    pub virt_regs: VirtRegs,
    pub virt_reg_builder: VirtRegBuilder,
    pub spill_allocator: SpillAllocator,
    pub split_placement: SplitPlacement,
    pub coalescing: Coalescing,
    pub stats: Stats,
    pub options: Options,
}

/// The word that a run ends in.
#[derive(Clone, Copy, PartialEq, Eq, Debug)]
pub enum End {
    Done,
    Spent,
    TooMany,
}

/// How a virtual register stands in the allocator's records.
#[derive(Clone, Copy)]
pub enum Standing {
    Unassigned { flag: bool },
    Assigned { flag: bool, reg: usize, weight: f32 },
    Dead,
}

impl Allocator {
    /// Runs at most `budget` dequeues, from the fresh job or, with `resume`,
    /// from the state that the last call left.
    pub fn run_on(&mut self, around: &mut Surroundings, budget: u32, resume: bool) -> End {
        let result = self.run(
            &mut around.uses,
            &around.hints,
            &mut around.reg_matrix,
            &mut around.virt_regs,
            &mut around.virt_reg_builder,
            &mut around.spill_allocator,
            &around.split_placement,
            &mut around.coalescing,
            &mut around.stats,
            &around.options,
            &around.func,
            &around.reginfo,
            budget,
            resume,
        );
        match result {
            Err(RegAllocError::TooManyLiveRegs) => End::TooMany,
            Ok(()) if self.queue.is_empty() => End::Done,
            Ok(()) => End::Spent,
        }
    }

    /// Places a virtual register directly: it leaves the queue, keeps its flag.
    pub fn place(
        &mut self,
        around: &mut Surroundings,
        vreg: VirtReg,
        reg: PhysReg,
        preference_weight: f32,
    ) {
        self.queue.take_off(vreg);
        context(self, around).assign(
            vreg,
            CandidateReg {
                reg,
                preference_weight,
            },
            false,
        );
    }

    /// Evicts a virtual register directly, as an eviction in a dequeue would.
    pub fn evict(&mut self, around: &mut Surroundings, vreg: VirtReg) {
        self.interfering_vregs.clear();
        self.interfering_vregs.push(vreg);
        context(self, around).evict_interfering_vregs();
    }

    pub fn standing(&self, vreg: VirtReg) -> Standing {
        match self.assignments[vreg] {
            Assignment::Assigned {
                evicted_for_preference,
                reg,
                preference_weight,
            } => Standing::Assigned {
                flag: evicted_for_preference,
                reg: reg.index(),
                weight: preference_weight,
            },
            Assignment::Unassigned {
                evicted_for_preference,
            } => Standing::Unassigned {
                flag: evicted_for_preference,
            },
            Assignment::Dead => Standing::Dead,
        }
    }

    /// The queued entries, greatest first.
    pub fn queued(&self) -> Vec<u64> {
        self.queue.entries()
    }

    /// The register last given to each set that was given one, ascending.
    pub fn last_given(&self) -> Vec<(usize, usize)> {
        let given = self.last_allocated_reg.iter();
        given
            .filter_map(|(set, reg)| Some((set.index(), reg.expand()?.index())))
            .collect()
    }
}

fn context<'a>(
    allocator: &'a mut Allocator,
    around: &'a mut Surroundings,
) -> Context<'a, JobFunction, JobRegs> {
    Context {
        func: &around.func,
        reginfo: &around.reginfo,
        allocator,
        uses: &mut around.uses,
        hints: &around.hints,
        reg_matrix: &mut around.reg_matrix,
        virt_regs: &mut around.virt_regs,
        virt_reg_builder: &mut around.virt_reg_builder,
        spill_allocator: &mut around.spill_allocator,
        split_placement: &around.split_placement,
        coalescing: &mut around.coalescing,
        stats: &mut around.stats,
        options: &around.options,
    }
}
