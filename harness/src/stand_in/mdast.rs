//! Stand-in for `src/mdast.rs`: only the alignment of a column.

/// Alignment of a column.
#[derive(Clone, Copy, Debug, Eq, PartialEq)]
pub enum AlignKind {
    Left,
    Right,
    Center,
    None,
}
