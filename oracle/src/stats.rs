//! Stand-in for the published statistics: the recorders.
//!
//! All but one are driven by `stat!` lines that stand in the published source;
//! `flag_turned_on` is added by a patch. Nothing reads them while a run goes.

#[derive(Default, Clone, Copy, Debug)]
pub struct Stats {
    pub dequeued: u64,

    /// Virtual registers left over: no candidates, or stage Split.
    pub left: u64,

    /// Dequeues in which `try_evict` was asked.
    pub tried: u64,

    /// Dequeues in which `try_evict` evicted, and the numbers it evicted.
    pub cost_dequeues: u64,
    pub cost_evicted: u64,

    /// Dequeues in which `try_evict_for_preferred_reg` evicted.
    pub preference_dequeues: u64,

    /// Numbers evicted by either.
    pub evicted: u64,

    /// Evicted-for-preference flags turned on.
    pub flags_on: u64,

    /// `evicted` when `try_evict` was last asked.
    evicted_before: u64,
}

impl Stats {
    pub fn eviction_tried(&mut self) {
        self.tried += 1;
        self.evicted_before = self.evicted;
    }

    pub fn evicted_by_cost(&mut self) {
        self.cost_dequeues += 1;
        self.cost_evicted += self.evicted - self.evicted_before;
    }

    pub fn preference_evicted(&self) -> u64 {
        self.evicted - self.cost_evicted
    }
}
