//! The library's six calls, over slots that the caller lends.
//!
//! All slots that are lent for an answer are written: the answer first, then blank records, or zeros. Refused, all are blank. Edit slots
//! are no such slots.

use crate::{ffi, Event, Refusal, KINDS};

/// What an accepted head has.
#[derive(Clone, Copy, Debug, PartialEq, Eq)]
pub struct Head {
    /// Raw events.
    pub events: usize,
    /// The offset where the delimiter row ends.
    pub end: usize,
    /// Cells.
    pub cells: usize,
}

/// What an accepted body row has.
#[derive(Clone, Copy, Debug, PartialEq, Eq)]
pub struct Row {
    /// Raw events.
    pub events: usize,
    /// The offset where the line ends.
    pub end: usize,
}

/// What an accepted sheet has.
#[derive(Clone, Copy, Debug, PartialEq, Eq)]
pub struct Sheet {
    /// Tables.
    pub tables: usize,
    /// Raw events.
    pub events: usize,
    /// Result events.
    pub results: usize,
    /// Alignments, one for each column of each table.
    pub alignments: usize,
}

/// One head: a head line that starts at `offset`, and the delimiter row under it.
///
/// With `code_indented`, a line that is indented by 4 columns or more is no head line. `lazy` and `pierced` say it of the second line.
pub fn head(
    sheet: &[u8],
    offset: usize,
    code_indented: bool,
    lazy: bool,
    pierced: bool,
    raw: &mut [Event],
) -> Result<Head, Refusal> {
    let mut counts = [0; 3];
    // SAFETY: each pointer and length is that of a slice, and what is written is borrowed for it alone.
    let number = unsafe {
        ffi::poolsheet_head(
            sheet.as_ptr(),
            sheet.len(),
            offset,
            code_indented,
            lazy,
            pierced,
            raw.as_mut_ptr(),
            raw.len(),
            &mut counts,
        )
    };
    let [events, end, cells] = counts;
    Refusal::answer(number).map(|()| Head { events, end, cells })
}

/// One body row: the line that starts at `offset`. `lazy` says it of the line.
pub fn row(sheet: &[u8], offset: usize, lazy: bool, raw: &mut [Event]) -> Result<Row, Refusal> {
    let mut counts = [0; 2];
    // SAFETY: each pointer and length is that of a slice, and what is written is borrowed for it alone.
    let number = unsafe {
        ffi::poolsheet_row(sheet.as_ptr(), sheet.len(), offset, lazy, raw.as_mut_ptr(), raw.len(), &mut counts)
    };
    let [events, end] = counts;
    Refusal::answer(number).map(|()| Row { events, end })
}

/// The result events of a list of raw tables, and their number.
pub fn resolve(list: &[Event], results: &mut [Event]) -> Result<usize, Refusal> {
    let mut counts = [0; 1];
    // SAFETY: each pointer and length is that of a slice, and what is written is borrowed for it alone.
    let number =
        unsafe { ffi::poolsheet_resolve(list.as_ptr(), list.len(), results.as_mut_ptr(), results.len(), &mut counts) };
    Refusal::answer(number).map(|()| counts[0])
}

/// A list with edits made, and the number of its events.
///
/// An edit is five numbers: the position in the list, the number of records removed there, where the added records start in the pool,
/// their number, and whether they come before earlier additions at that position (0 is no). Numbers behind the last whole five are not
/// looked at.
///
/// Accepted, `edits` holds the same edits by rising position, those at equal positions in the order given; an edit that removes and adds
/// nothing stands at its position too, also one beyond the list. Refused, it is as it was. The time for n edits grows as n (log n)² at
/// most, as n where their positions rise already (lists and edits below 2^32).
pub fn edit(list: &[Event], edits: &mut [usize], pool: &[Event], results: &mut [Event]) -> Result<usize, Refusal> {
    let mut counts = [0; 1];
    // SAFETY: each pointer and length is that of a slice, and what is written is borrowed for it alone.
    let number = unsafe {
        ffi::poolsheet_edit(
            list.as_ptr(),
            list.len(),
            edits.as_mut_ptr(),
            edits.len(),
            pool.as_ptr(),
            pool.len(),
            results.as_mut_ptr(),
            results.len(),
            &mut counts,
        )
    };
    Refusal::answer(number).map(|()| counts[0])
}

/// The alignments of the table that the event at `index` of a list of result events enters, and their number.
pub fn align(list: &[Event], index: usize, alignments: &mut [u8]) -> Result<usize, Refusal> {
    let mut counts = [0; 1];
    // SAFETY: each pointer and length is that of a slice, and what is written is borrowed for it alone.
    let number = unsafe {
        ffi::poolsheet_align(list.as_ptr(), list.len(), index, alignments.as_mut_ptr(), alignments.len(), &mut counts)
    };
    Refusal::answer(number).map(|()| counts[0])
}

/// A whole sheet: the raw events, the result events and the alignments of all its tables, in sheet order.
///
/// A table ends at a blank line, at a remark, or with the sheet. A remark is a line with at most 3 columns of indent and then `>`; it is
/// no part of any table, whatever `code_indented` says.
///
/// [`raw_slots`](crate::raw_slots), [`result_slots`](crate::result_slots) and [`alignment_slots`](crate::alignment_slots) suffice.
pub fn sheet(
    sheet: &[u8],
    code_indented: bool,
    raw: &mut [Event],
    results: &mut [Event],
    alignments: &mut [u8],
) -> Result<Sheet, Refusal> {
    sheet_with(&KINDS, sheet, code_indented, raw, results, alignments)
}

/// The same with a firm's own table of kinds, which is tested first; [`KINDS`] says which tables pass.
pub fn sheet_with(
    kinds: &[u8],
    sheet: &[u8],
    code_indented: bool,
    raw: &mut [Event],
    results: &mut [Event],
    alignments: &mut [u8],
) -> Result<Sheet, Refusal> {
    let mut counts = [0; 4];
    // SAFETY: each pointer and length is that of a slice, and what is written is borrowed for it alone.
    let number = unsafe {
        ffi::poolsheet_sheet(
            sheet.as_ptr(),
            sheet.len(),
            kinds.as_ptr(),
            kinds.len(),
            code_indented,
            raw.as_mut_ptr(),
            raw.len(),
            results.as_mut_ptr(),
            results.len(),
            alignments.as_mut_ptr(),
            alignments.len(),
            &mut counts,
        )
    };
    let [tables, events, results, alignments] = counts;
    Refusal::answer(number).map(|()| Sheet { tables, events, results, alignments })
}
