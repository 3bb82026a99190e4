//! The six calls of our reader, each behind a safe function of the same arguments, with what it leaves on a refusal too. Each gives
//! back 0 or the number of document 01's refusal.

use poolsheet::ffi as c;
pub use poolsheet::Event;
use poolsheet::KINDS;

/// An edit: position, removed, pool start, pool count, before (0 is no).
pub type Five = [usize; 5];

/// The flags of a head call.
#[derive(Clone, Copy, Debug, Default)]
pub struct HeadFlags {
    pub code_indented: bool,
    pub lazy: bool,
    pub pierced: bool,
}

/// Head; counts are events, end, cells.
pub fn head(sheet: &[u8], offset: usize, flags: HeadFlags, raw: &mut [Event], counts: &mut [usize; 3]) -> u8 {
    let HeadFlags { code_indented, lazy, pierced } = flags;
    let (from, slots) = (sheet.as_ptr(), raw.as_mut_ptr());
    // SAFETY: each pointer comes with the length of its slice, and nothing is kept after the call.
    unsafe { c::poolsheet_head(from, sheet.len(), offset, code_indented, lazy, pierced, slots, raw.len(), counts) }
}

/// Row; counts are events, end.
pub fn row(sheet: &[u8], offset: usize, lazy: bool, raw: &mut [Event], counts: &mut [usize; 2]) -> u8 {
    // SAFETY: as in `head`.
    unsafe { c::poolsheet_row(sheet.as_ptr(), sheet.len(), offset, lazy, raw.as_mut_ptr(), raw.len(), counts) }
}

/// Resolve; the count is that of results.
pub fn resolve(list: &[Event], results: &mut [Event], counts: &mut [usize; 1]) -> u8 {
    // SAFETY: as in `head`.
    unsafe { c::poolsheet_resolve(list.as_ptr(), list.len(), results.as_mut_ptr(), results.len(), counts) }
}

/// Edit; the count is that of results.
pub fn edit(list: &[Event], edits: &mut [Five], pool: &[Event], results: &mut [Event], counts: &mut [usize; 1]) -> u8 {
    let numbers = edits.as_flattened_mut();
    let (edit_slots, edit_len) = (numbers.as_mut_ptr(), numbers.len());
    let (slots, slots_len) = (results.as_mut_ptr(), results.len());
    let (in_list, in_pool) = (list.as_ptr(), pool.as_ptr());
    // SAFETY: as in `head`.
    unsafe {
        c::poolsheet_edit(in_list, list.len(), edit_slots, edit_len, in_pool, pool.len(), slots, slots_len, counts)
    }
}

/// Alignment; the count is that of alignments.
pub fn align(list: &[Event], index: usize, alignments: &mut [u8], counts: &mut [usize; 1]) -> u8 {
    let (slots, slots_len) = (alignments.as_mut_ptr(), alignments.len());
    // SAFETY: as in `head`.
    unsafe { c::poolsheet_align(list.as_ptr(), list.len(), index, slots, slots_len, counts) }
}

/// The slots lent to the sheet call.
pub struct SheetSlots<'a> {
    pub raw: &'a mut [Event],
    pub results: &'a mut [Event],
    pub alignments: &'a mut [u8],
}

/// Sheet with the built-in kinds; counts are tables, raw events, results, alignments.
pub fn sheet(sheet: &[u8], code_indented: bool, slots: &mut SheetSlots, counts: &mut [usize; 4]) -> u8 {
    sheet_with(&KINDS, sheet, code_indented, slots, counts)
}

/// Sheet with a table of kinds.
pub fn sheet_with(
    kinds: &[u8],
    sheet: &[u8],
    code_indented: bool,
    slots: &mut SheetSlots,
    counts: &mut [usize; 4],
) -> u8 {
    // SAFETY: as in `head`.
    unsafe {
        c::poolsheet_sheet(
            sheet.as_ptr(),
            sheet.len(),
            kinds.as_ptr(),
            kinds.len(),
            code_indented,
            slots.raw.as_mut_ptr(),
            slots.raw.len(),
            slots.results.as_mut_ptr(),
            slots.results.len(),
            slots.alignments.as_mut_ptr(),
            slots.alignments.len(),
            counts,
        )
    }
}
