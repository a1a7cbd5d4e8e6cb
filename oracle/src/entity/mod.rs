//! Stand-in for the published root of the entity collections: the four
//! published files, and small forms of the collections that were not published.

#[macro_use]
mod base;

mod compact_list;
pub mod iter;
pub mod packed_option;
mod primary_map;
mod secondary_map;
mod small_set;
mod sparse;

pub use base::{EntityRange, EntityRef};
pub use compact_list::{CompactList, CompactListPool};
pub use packed_option::{PackedOption, ReservedValue};
pub use primary_map::PrimaryMap;
pub use secondary_map::SecondaryMap;
pub use small_set::SmallEntitySet;
pub use sparse::SparseMap;
