//! include/sid_filter.h, to which the tests hold this package.

/// The header's text.
pub(crate) const HEADER: &str = include_str!("../../../include/sid_filter.h");

/// What the header defines a name as, the name without its `SID_FILTER_`.
pub(crate) fn defined(name: &str) -> &'static str {
    let start = format!("#define SID_FILTER_{name} ");
    HEADER.lines().find_map(|line| line.strip_prefix(&start)).unwrap_or_else(|| panic!("{name} is not in the header"))
}
