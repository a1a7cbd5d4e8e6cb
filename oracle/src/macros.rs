//! Stand-ins for the macros of the published crate.

/// Tracing is left out; the arguments are still checked by the compiler.
macro_rules! trace {
    ($($arg:tt)*) => {
        if false {
            _ = format_args!($($arg)*);
        }
    };
}

macro_rules! trace_enabled {
    () => {
        false
    };
}

/// Counts the events that `stats.rs` records and drops all others, so that the
/// time measured holds little more than the allocator's own.
macro_rules! stat {
    ($stats:expr, dequeued_reg) => { $stats.dequeued += 1 };
    ($stats:expr, must_spill_vreg) => { $stats.left += 1 };
    ($stats:expr, try_split_or_spill) => { $stats.left += 1 };
    ($stats:expr, try_evict) => { $stats.eviction_tried() };
    ($stats:expr, assigned_after_evict) => { $stats.evicted_by_cost() };
    ($stats:expr, evicted_better_candidate) => { $stats.preference_dequeues += 1 };
    ($stats:expr, evicted_vregs) => { $stats.evicted += 1 };
    ($stats:expr, flag_turned_on) => { $stats.flags_on += 1 };
    ($stats:expr, $other:ident $(, $count:expr)?) => {{
        _ = &$stats;
        $( _ = $count; )?
    }};
}
