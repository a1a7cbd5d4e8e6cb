//! The published register allocator, reduced to the stage of document 01.
//!
//! Of the files below, those of the reservation matrix, the queue, the order,
//! the eviction and the main loop are the published ones with the patches of
//! `oracle/patches.txt`. The others stand in for files that were not
//! published, or are ours: job, loaded, listing, script, counts and modes.

// The published files hold more than the stage calls, and name a feature that
// this crate does not have.
#![allow(dead_code, unused, unexpected_cfgs)]

extern crate alloc;

#[macro_use]
mod macros;

#[macro_use]
pub mod entity;

pub mod debug_utils;
pub mod function;
pub mod internal;
pub mod reginfo;
pub mod stats;

pub mod counts;
pub mod job;
pub mod listing;
pub mod loaded;
pub mod modes;
pub mod script;

pub use stats::Stats;

/// Stand-in: the published options only steer parts that are left out.
#[derive(Default)]
pub struct Options;

/// Stand-in for the published errors: the stage meets only this one.
#[derive(Debug, Clone, Copy, PartialEq, Eq)]
pub enum RegAllocError {
    TooManyLiveRegs,
}
