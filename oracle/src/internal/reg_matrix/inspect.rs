//! Ours: reads the reservation table for listings.

use super::{RegMatrix, UnitReservations};
use crate::reginfo::RegUnit;

/// Who has an entry of the table.
pub enum Owner {
    Held {
        vreg: usize,
        fixed_index: Option<u32>,
    },
    Use {
        value: u32,
    },
    Def,
}

/// An entry of the table as it is listed.
pub struct TableEntry {
    pub unit: usize,
    pub from: u32,
    pub to: u32,
    pub owner: Owner,
}

fn owner(entry: &super::Entry) -> Owner {
    let number = (entry.fixed_use != !0).then_some(entry.fixed_use);
    match (entry.vreg.expand(), number) {
        (Some(vreg), fixed_index) => Owner::Held {
            vreg: vreg.index(),
            fixed_index,
        },
        (None, Some(value)) => Owner::Use { value },
        (None, None) => Owner::Def,
    }
}

impl RegMatrix {
    /// All entries by unit and end.
    pub fn entries(&self) -> Vec<TableEntry> {
        let mut entries = Vec::new();
        for (unit, reservations) in &self.reservations {
            for (to, entry) in &reservations.btree {
                entries.push(TableEntry {
                    unit: unit.index(),
                    from: entry.from.bits,
                    to: to.bits,
                    owner: owner(entry),
                });
            }
        }
        entries
    }
}
