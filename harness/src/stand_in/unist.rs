//! Stand-in for `src/unist.rs`: only the point, which `event.rs` names. Not used by tables.

/// A place in a file.
#[derive(Clone, Debug)]
pub struct Point {
    pub line: usize,
    pub column: usize,
    pub offset: usize,
}
