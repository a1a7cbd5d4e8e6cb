//! A loaded job with the published allocator on it, and the calls of document
//! 01 with their tests. A call is tested before any published code is asked,
//! since that code asserts or panics where document 01 refuses.

use std::ops::ControlFlow;

use crate::Stats;
use crate::function::Value;
use crate::internal::allocator::Allocator;
use crate::internal::allocator::direct::{End, Standing, Surroundings};
use crate::internal::hints::{Hint, Hints};
use crate::internal::live_range::{LiveRangePoint, LiveRangeSegment, ValueSegment};
use crate::internal::reg_matrix::{Interference, InterferenceKind, InterferenceSegment, RegMatrix};
use crate::internal::split_placement::SplitPlacement;
use crate::internal::target::{ClassData, JobFunction, JobRegs};
use crate::internal::uses::UseList;
use crate::internal::value_live_ranges::ValueSet;
use crate::internal::virt_regs::builder::{Traits, VirtRegBuilder};
use crate::internal::virt_regs::{VirtReg, VirtRegs};
use crate::job::{self, Answer, Job, Reserved, Segment, refuse_if};
use crate::reginfo::{PhysReg, PhysRegSet, RegClass, RegUnit};

/// A job, its allocator and all that the allocator works on.
pub struct Loaded {
    pub job: Job,
    pub allocator: Allocator,
    pub around: Surroundings,
}

/// A report of a check asked by itself.
pub struct Report {
    pub unit: usize,
    pub segment: usize,
    pub from: u32,
    pub to: u32,
    /// The holder, or none where the interference is fixed.
    pub holder: Option<usize>,
}

/// A segment that knows its place in the list that is checked.
#[derive(Clone, Copy, Debug)]
struct NumberedSegment {
    index: usize,
    segment: Segment,
}

impl InterferenceSegment for NumberedSegment {
    fn live_range(&self) -> LiveRangeSegment {
        live_range(self.segment.from, self.segment.to)
    }

    fn value(&self) -> Value {
        Value::new(usize::from(self.segment.value))
    }
}

fn live_range(from: u32, to: u32) -> LiveRangeSegment {
    LiveRangeSegment::new(LiveRangePoint { bits: from }, LiveRangePoint { bits: to })
}

impl Loaded {
    /// Builds the matrix and the virtual registers of a job. The allocator is
    /// not yet started.
    pub fn new(job: Job) -> Self {
        let around = Surroundings {
            func: JobFunction,
            reginfo: registers(&job),
            uses: Default::default(),
            hints: hints(&job),
            reg_matrix: RegMatrix::new(),
            virt_regs: virtual_registers(&job),
            virt_reg_builder: Default::default(),
            spill_allocator: Default::default(),
            split_placement: SplitPlacement::new(),
            coalescing: Default::default(),
            stats: Stats::default(),
            options: Default::default(),
        };
        let mut loaded = Self {
            job,
            allocator: Allocator::new(),
            around,
        };
        reserve(&loaded.job, &mut loaded.around.reg_matrix);
        loaded
    }

    /// Brings the matrix back to the fresh job and keeps the room that all
    /// buffers have grown to, as the published allocator does between uses.
    pub fn clear(&mut self) {
        self.around.reg_matrix.clear();
        reserve(&self.job, &mut self.around.reg_matrix);
        self.around.stats = Stats::default();
    }

    /// Queues all virtual registers, so that direct calls can be made.
    pub fn start(&mut self) {
        self.allocator.run_on(&mut self.around, 0, false);
    }

    /// Runs the fresh job; the matrix must hold its reservations alone.
    pub fn run_whole(&mut self, budget: u32) -> End {
        self.allocator.run_on(&mut self.around, budget, false)
    }

    /// Runs on from the state that the last call left.
    pub fn run(&mut self, budget: u32) -> End {
        self.allocator.run_on(&mut self.around, budget, true)
    }

    pub fn standing(&self, number: usize) -> Standing {
        self.allocator.standing(VirtReg::new(number))
    }

    /// Whether the class of a virtual register, or a hint of a member of its
    /// set, names a register.
    fn may_hold(&self, number: usize, register: u8) -> bool {
        let table = &self.job.virtual_registers;
        let own = &table[number];
        let in_class = self.job.classes[usize::from(own.class)].contains(&register);
        let mut members = table.iter().filter(|other| other.set == own.set);
        in_class || members.any(|other| other.hints.iter().any(|hint| hint.register == register))
    }

    /// A direct placement; tests 8, 9, 13, 14.
    pub fn place(&mut self, number: u16, register: u8, weight: u32) -> Answer<()> {
        let number = usize::from(number);
        refuse_if(
            number >= self.job.virtual_registers.len(),
            job::UNKNOWN_NUMBER,
        )?;
        refuse_if(
            usize::from(register) >= self.job.registers.len(),
            job::UNKNOWN_NUMBER,
        )?;
        refuse_if(!self.may_hold(number, register), job::UNKNOWN_NUMBER)?;
        let weight = job::finite_weight(weight)?;
        let unassigned = matches!(self.standing(number), Standing::Unassigned { .. });
        refuse_if(!unassigned, job::WRONG_STANDING)?;
        let segments = &self.job.virtual_registers[number].segments;
        refuse_if(
            !self.reports(register, segments, false).is_empty(),
            job::INTERFERENCE,
        )?;

        let (vreg, reg) = (VirtReg::new(number), PhysReg::new(usize::from(register)));
        self.allocator.place(&mut self.around, vreg, reg, weight);
        Ok(())
    }

    /// A direct eviction; tests 8, 13.
    pub fn evict(&mut self, number: u16) -> Answer<()> {
        let number = usize::from(number);
        refuse_if(
            number >= self.job.virtual_registers.len(),
            job::UNKNOWN_NUMBER,
        )?;
        let assigned = matches!(self.standing(number), Standing::Assigned { .. });
        refuse_if(!assigned, job::WRONG_STANDING)?;
        self.allocator.evict(&mut self.around, VirtReg::new(number));
        Ok(())
    }

    /// A check asked by itself; tests 8, then 5 without segments, then 5, 6, 7
    /// range by range.
    pub fn check(&self, register: u8, segments: &[Segment], full: bool) -> Answer<Vec<Report>> {
        refuse_if(
            usize::from(register) >= self.job.registers.len(),
            job::UNKNOWN_NUMBER,
        )?;
        refuse_if(segments.is_empty(), job::EMPTY)?;
        let mut previous_end = 0;
        for &segment in segments {
            job::test_segment(segment, previous_end)?;
            previous_end = segment.to;
        }
        Ok(self.reports(register, segments, full))
    }

    /// Collects all that the published check reports.
    fn reports(&self, register: u8, segments: &[Segment], full: bool) -> Vec<Report> {
        let numbered = segments.iter().enumerate();
        let numbered: Vec<_> = numbered
            .map(|(index, &segment)| NumberedSegment { index, segment })
            .collect();
        let mut reports = Vec::new();
        _ = self.around.reg_matrix.check_interference(
            &numbered,
            PhysReg::new(usize::from(register)),
            &self.around.reginfo,
            &mut Stats::default(),
            full,
            |interference| {
                reports.push(report(interference));
                ControlFlow::<()>::Continue(())
            },
        );
        reports
    }

    /// A spare question; tests 8, 5, 6.
    pub fn spare(&self, unit: u8, from: u32, to: u32) -> Answer<bool> {
        refuse_if(usize::from(unit) >= job::UNITS, job::UNKNOWN_NUMBER)?;
        job::test_range(from, to)?;
        Ok(self.is_spare(usize::from(unit), from, to))
    }

    pub fn is_spare(&self, unit: usize, from: u32, to: u32) -> bool {
        self.around
            .reg_matrix
            .is_unit_free(RegUnit::new(unit), live_range(from, to))
    }
}

fn report(interference: Interference<NumberedSegment>) -> Report {
    Report {
        unit: interference.unit.index(),
        segment: interference.segment.index,
        from: interference.range.from.bits,
        to: interference.range.to.bits,
        holder: match interference.kind {
            InterferenceKind::Fixed => None,
            InterferenceKind::VirtReg(vreg) => Some(vreg.index()),
        },
    }
}

/// Registers and classes. In the published source a class has members beyond
/// its order, which only hints can name: here they are those that the hints of
/// its virtual registers name, since `group_for_reg` let them through.
fn registers(job: &Job) -> JobRegs {
    let register = |&number: &u8| PhysReg::new(usize::from(number));
    let class = |(number, order): (usize, &Vec<u8>)| {
        let mut members = PhysRegSet::new();
        order
            .iter()
            .for_each(|number| members.insert(register(number)));
        let table = job.virtual_registers.iter();
        for other in table.filter(|other| usize::from(other.class) == number) {
            other
                .hints
                .iter()
                .for_each(|hint| members.insert(register(&hint.register)));
        }
        ClassData {
            order: order.iter().map(register).collect(),
            members,
        }
    };
    JobRegs {
        units: job.registers.clone(),
        classes: job.classes.iter().enumerate().map(class).collect(),
    }
}

fn hints(job: &Job) -> Hints {
    let mut hints = Hints::default();
    for register in &job.virtual_registers {
        let own = register.hints.iter();
        hints.push(
            own.map(|hint| Hint {
                reg: PhysReg::new(usize::from(hint.register)),
                weight: hint.weight,
            })
            .collect(),
        );
    }
    hints
}

/// Enters the fixed reservations of a job in an empty matrix.
fn reserve(job: &Job, matrix: &mut RegMatrix) {
    for reservation in &job.reservations {
        let unit = RegUnit::new(usize::from(reservation.unit));
        let range = live_range(reservation.from, reservation.to);
        match reservation.kind {
            Reserved::Use { value } => {
                matrix.reserve_fixed_use(unit, range, Value::new(usize::from(value)));
            }
            Reserved::Def => matrix.reserve_fixed_def(unit, range),
        }
    }
}

fn virtual_registers(job: &Job) -> VirtRegs {
    let mut virt_regs = VirtRegs::new();
    for register in &job.virtual_registers {
        let traits = Traits {
            class: RegClass::new(usize::from(register.class)),
            value_set: ValueSet::new(usize::from(register.set)),
            spill_weight: register.spill_weight,
            size: register.size,
            has_fixed_hint: !register.hints.is_empty(),
        };
        let segment = |segment: &Segment| ValueSegment {
            live_range: live_range(segment.from, segment.to),
            use_list: UseList,
            value: Value::new(usize::from(segment.value)),
        };
        let segments = register.segments.iter().map(segment).collect();
        VirtRegBuilder::add(&mut virt_regs, traits, segments);
    }
    virt_regs
}
