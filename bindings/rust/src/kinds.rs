//! The kind of each byte.

/// The kind of each byte, as [`read_sheet`](crate::read_sheet) reads: 1 tab and space, 2 line feed and carriage return, 3 the pipe, 4 the
/// backslash, 5 the hyphen, 6 the colon, 0 any other.
///
/// [`read_sheet_with`](crate::read_sheet_with) and [`calls::sheet_with`](crate::calls::sheet_with) take a table of the firm's own. Where a
/// firm writes `;` for the pipe, that is a copy in which the two are exchanged:
///
/// ```
/// let mut kinds = poolsheet::KINDS;
/// kinds.swap(usize::from(b';'), usize::from(b'|'));
/// let sheet = poolsheet::read_sheet_with(&kinds, b"server;state\n-;-\nweb|1;up", true)?;
/// assert_eq!(sheet.tables()[0].column(0).collect::<Vec<_>>(), [b"web|1"]);
/// # Ok::<(), poolsheet::Refusal>(())
/// ```
///
/// A table passes if it has 256 entries, none above 6 ([`NoKindTable`](crate::Refusal::NoKindTable) if not), bytes 9 and 32 and no others
/// have kind 1, bytes 10 and 13 and no others have kind 2 ([`WhitespaceKindsDiffer`](crate::Refusal::WhitespaceKindsDiffer)), one byte and
/// no other has each of the kinds 3 to 6, and the byte `>` has kind 0
/// ([`PunctuationKindsDiffer`](crate::Refusal::PunctuationKindsDiffer)). A byte order mark is passed over, and a remark begins with `>`,
/// whatever the table.
pub const KINDS: [u8; 256] = kinds();

const fn kinds() -> [u8; 256] {
    let mut kinds = [0; 256];
    kinds[b'\t' as usize] = 1;
    kinds[b' ' as usize] = 1;
    kinds[b'\n' as usize] = 2;
    kinds[b'\r' as usize] = 2;
    kinds[b'|' as usize] = 3;
    kinds[b'\\' as usize] = 4;
    kinds[b'-' as usize] = 5;
    kinds[b':' as usize] = 6;
    kinds
}
