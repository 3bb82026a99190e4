//! The tables of pool sheets: GitHub Flavored Markdown tables out of a text of at most 65,536 bytes.
//!
//! The reader is a proved library with no state, which this crate calls. [`read_sheet`] lends it slots of its own and gives the tables,
//! their columns and where each cell's text stands:
//!
//! ```
//! let sheet = poolsheet::read_sheet(b"server|state\n-|-\nweb-01|up\nweb-02", true)?;
//! let table = &sheet.tables()[0];
//! let state = table.position(b"state").unwrap();
//! assert_eq!(table.column(state).collect::<Vec<_>>(), [&b"up"[..], b""]);
//! # Ok::<(), poolsheet::Refusal>(())
//! ```
//!
//! A byte order mark before the first line is passed over, so that the first header has its name; offsets count it.
//!
//! [`KINDS`] says which byte is the pipe, the backslash, the hyphen and the colon. A firm that writes others has a table of its own, and
//! [`read_sheet_with`] takes it.
//!
//! [`calls`] has the library's six calls as they are, over slots that the caller lends, and [`ffi`] their C declarations.
//!
//! The library is linked for x86-64 Linux.

#![deny(missing_docs)]

pub mod calls;
mod event;
pub mod ffi;
mod kinds;
mod refusal;
mod table;

pub use event::{Alignment, Event, Name};
pub use kinds::KINDS;
pub use refusal::Refusal;
pub use table::{read_sheet, read_sheet_with, Cell, Row, Sheet, Table};

/// The longest sheet that is read, in bytes.
pub const SHEET_MAX: usize = 65_536;

/// Raw slots that suffice for any sheet of `n` bytes.
///
/// A table has 2 raw events for each piece and for each line end between its lines, 2 for each row, 2 for its head. Pieces and line
/// ends are bytes of the table, a body row has at least 2 of them with the line end before it, and head line, line end and delimiter
/// row have at least 4: at most `3 * b + 2` for `b` bytes. Behind each table but the last stand at least 2 bytes of no table.
pub const fn raw_slots(n: usize) -> usize {
    3 * n + 2
}

/// Result slots that suffice for any sheet of `n` bytes.
///
/// In each row at most as many cells and cell texts come in addition as the row has bytes, and 1 more: with the line end at most
/// `5 * b` for a body row of `b` bytes, and `5 * b + 8` for a table.
pub const fn result_slots(n: usize) -> usize {
    5 * n + 8
}

/// Alignment slots that suffice for any sheet of `n` bytes.
///
/// A table of `c` columns has at least `c` bytes in its head line, a line end, and `2 * c - 1` in its delimiter row.
pub const fn alignment_slots(n: usize) -> usize {
    n / 3
}
