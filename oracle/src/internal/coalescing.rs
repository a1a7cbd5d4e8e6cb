//! Stand-in: coalescing has no part in the stage and is only handed on.

#[derive(Default)]
pub struct Coalescing;
