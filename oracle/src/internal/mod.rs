//! The published files of the stage, and stand-ins for what they name.

pub mod allocator;
pub mod coalescing;
pub mod hints;
pub mod live_range;
pub mod reg_matrix;
pub mod spill_allocator;
pub mod split_placement;
pub mod target;
pub mod uses;
pub mod value_live_ranges;
pub mod virt_regs;
