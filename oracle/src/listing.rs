//! What is printed: the sheet of a job, the state after a call.

use std::fmt::Write;

use crate::internal::allocator::direct::{End, Standing};
use crate::internal::reg_matrix::inspect::Owner;
use crate::job::Refusal;
use crate::loaded::Loaded;

/// Appends a line. Writing to a `String` does not fail.
macro_rules! line {
    ($text:expr, $($arg:tt)*) => {
        _ = writeln!($text, $($arg)*)
    };
}
pub(crate) use line;

pub fn refused(text: &mut String, refusal: Refusal) {
    line!(text, "refused {}", refusal.0);
}

pub fn end(text: &mut String, end: End, dequeues: u64) {
    let word = match end {
        End::Done => "done",
        End::Spent => "spent",
        End::TooMany => "toomany",
    };
    line!(text, "end {word} {dequeues}");
}

/// The sheet of a job that was run.
pub fn sheet(text: &mut String, loaded: &Loaded, word: End, dequeues: u64) {
    end(text, word, dequeues);
    for number in 0..loaded.job.virtual_registers.len() {
        match loaded.standing(number) {
            Standing::Assigned { reg, .. } => line!(text, "v {number} reg {reg}"),
            Standing::Dead => line!(text, "v {number} left"),
            Standing::Unassigned { .. } => line!(text, "v {number} wait"),
        }
    }
    table(text, loaded);
    if let Some((from, to)) = loaded.job.probe {
        let units = loaded
            .job
            .registers
            .iter()
            .fold(0, |all, units| all | units);
        text.push_str("spare");
        for unit in (0..64).filter(|unit| units >> unit & 1 != 0) {
            if loaded.is_spare(unit, from, to) {
                _ = write!(text, " {unit}");
            }
        }
        text.push('\n');
    }
}

/// The table, by unit and end.
fn table(text: &mut String, loaded: &Loaded) {
    for entry in loaded.around.reg_matrix.entries() {
        _ = write!(text, "u {} {} {} ", entry.unit, entry.from, entry.to);
        match entry.owner {
            Owner::Held {
                vreg,
                fixed_index: Some(index),
            } => line!(text, "held {vreg} {index}"),
            Owner::Held {
                vreg,
                fixed_index: None,
            } => line!(text, "held {vreg} -"),
            Owner::Use { value } => line!(text, "use {value}"),
            Owner::Def => line!(text, "def"),
        }
    }
}

/// The whole state: records, queue, registers last given, table.
pub fn state(text: &mut String, loaded: &Loaded) {
    for number in 0..loaded.job.virtual_registers.len() {
        match loaded.standing(number) {
            Standing::Unassigned { flag } => {
                line!(text, "s {number} unassigned {}", u8::from(flag));
            }
            Standing::Assigned { flag, reg, weight } => {
                line!(
                    text,
                    "s {number} assigned {} {reg} {}",
                    u8::from(flag),
                    weight.to_bits()
                );
            }
            Standing::Dead => line!(text, "s {number} dead"),
        }
    }
    text.push('q');
    for entry in loaded.allocator.queued() {
        _ = write!(text, " {entry}");
    }
    text.push_str("\nl");
    for (set, reg) in loaded.allocator.last_given() {
        _ = write!(text, " {set}:{reg}");
    }
    text.push('\n');
    table(text, loaded);
}
