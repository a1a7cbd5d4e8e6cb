//! Ours: what direct calls and listings need of the queue.

use super::{AllocationQueue, Entry};
use crate::internal::virt_regs::VirtReg;

impl AllocationQueue {
    pub fn is_empty(&self) -> bool {
        self.queue.is_empty()
    }

    /// Takes a virtual register off the queue, at whatever stage it stands.
    pub fn take_off(&mut self, vreg: VirtReg) {
        self.queue
            .retain(|entry| entry.bits as u32 as usize != vreg.index());
    }

    /// The queued entries, greatest first.
    pub fn entries(&self) -> Vec<u64> {
        let mut bits: Vec<u64> = self.queue.iter().map(|entry| entry.bits).collect();
        bits.sort_by(|a, b| b.cmp(a));
        bits
    }
}
