//! Stand-in for helpers of the published tracing.

use std::fmt;

/// Lists the elements with a separator; tracing alone asks for it.
pub fn display_iter<T: fmt::Display>(
    iter: impl IntoIterator<Item = T>,
    separator: &str,
) -> impl fmt::Display {
    iter.into_iter()
        .map(|item| item.to_string())
        .collect::<Vec<_>>()
        .join(separator)
}
