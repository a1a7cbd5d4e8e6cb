//! Stand-in: segments of a job carry no uses, so every use list is empty.

use std::fmt;
use std::ops::Index;

use crate::function::Inst;

#[derive(Debug, Clone, Copy)]
pub struct UseKind;

impl fmt::Display for UseKind {
    fn fmt(&self, f: &mut fmt::Formatter<'_>) -> fmt::Result {
        f.write_str("use")
    }
}

#[derive(Debug, Clone, Copy)]
pub struct Use {
    pub pos: Inst,
    pub kind: UseKind,
}

#[derive(Debug, Clone, Copy, Default)]
pub struct UseList;

impl UseList {
    pub fn has_fixedhint(self) -> bool {
        false
    }

    pub fn has_fixeddef(self) -> bool {
        false
    }

    pub fn has_livein(self) -> bool {
        false
    }

    pub fn has_liveout(self) -> bool {
        false
    }

    pub fn set_fixedhint(&mut self, _has_hint: bool) {
        unreachable!("splitting is left out")
    }

    pub fn split_at_inst(self, _at: Inst, _uses: &Uses) -> (UseList, UseList) {
        unreachable!("splitting is left out")
    }
}

#[derive(Default)]
pub struct Uses;

impl Index<UseList> for Uses {
    type Output = [Use];

    fn index(&self, _list: UseList) -> &[Use] {
        &[]
    }
}
